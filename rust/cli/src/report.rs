//! What is told of one file: a line for people, an object for machines, and a status.

use crate::failure::{DONE, Failure};
use crate::files;
use crate::json::Json;
use std::path::Path;

#[derive(Clone, Debug, PartialEq)]
pub struct Report {
    pub status: u8,
    /// Without the file's name.
    pub text: String,
    pub fields: Vec<(&'static str, Json)>,
}

impl Report {
    pub fn done(text: String, fields: Vec<(&'static str, Json)>) -> Self {
        Report { status: DONE, text, fields }
    }

    pub fn of(result: Result<Report, Failure>) -> Self {
        result.unwrap_or_else(|failure| {
            let check = failure.check().map_or(Json::Null, |number| Json::Whole(number.into()));
            let word =
                if failure.status() == crate::failure::REFUSED { "refused" } else { "unreadable" };
            let fields = vec![
                ("result", Json::text(word)),
                ("check", check),
                ("sentence", Json::text(failure.sentence())),
            ];
            Report { status: failure.status(), text: failure.to_string(), fields }
        })
    }

    /// The line that is printed, for people or as JSON.
    pub fn line(&self, path: &Path, json: bool) -> String {
        let name = files::shown(path);
        if !json {
            return format!("{name}: {}", self.text);
        }
        let mut fields =
            vec![("file", Json::text(name)), ("status", Json::Whole(self.status.into()))];
        fields.extend(self.fields.clone());
        Json::Object(fields).to_string()
    }
}
