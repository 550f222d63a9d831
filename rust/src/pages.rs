//! The pages for the floor (02, C-23): a model's bounds, and what each variable implies at 1, on paper.

use crate::answer::Places;
use crate::ffi;
use crate::model::{Model, answered};
use crate::refusal::Refusal;

/// The bytes of a page: 60 lines of 80 columns and a line feed each.
pub const PAGE: usize = 4_860;

impl Model {
    /// The number of pages: at most 70.
    pub fn page_count(&self) -> Result<usize, Refusal> {
        let table = self.table();
        let [pages, ..]: Places = answered(|answer, answer_len| {
            // SAFETY: the pointers and counts are those of slices that do not overlap.
            unsafe {
                ffi::astrolabe_page_count(self.n(), table.as_ptr(), table.len(), answer, answer_len)
            }
        })?;
        Ok(pages as usize) // at most 70 by the library's contract
    }

    /// The bounds and the implications of "this variable is 1" as ASCII text, [`PAGE`] bytes a page. Line 1 of
    /// each page is its number; then each variable has its line, upwards: its number, l and u, and up to eight
    /// literals, `+j` for "j is 1" and `-j` for "j is 0", with further ones on lines of their own. The rows are
    /// not printed.
    ///
    /// ```
    /// use astrolabe::Model;
    ///
    /// let mut model = Model::new(vec![0, 1, 0, 1], vec![1, 1], vec![1])?; // x + y ≤ 1
    /// model.rounds(8)?;
    /// let pages = String::from_utf8(model.pages()?).expect("ASCII");
    /// let lines: Vec<&str> = pages.lines().collect();
    /// assert_eq!((lines.len(), lines[0].trim()), (60, "1"));
    /// assert_eq!(lines[1].trim_end(), "     0       0       1 -1"); // x is 1: y is 0
    /// assert_eq!(lines[2].trim_end(), "     1       0       1 -0");
    /// # Ok::<(), astrolabe::Refusal>(())
    /// ```
    pub fn pages(&self) -> Result<Vec<u8>, Refusal> {
        let (bounds, table) = (self.bounds(), self.table());
        let mut pages = vec![0; PAGE * self.page_count()?];
        // SAFETY: the pointers and counts are those of slices, no two of which overlap.
        let returned = unsafe {
            ffi::astrolabe_write_pages(
                self.n(),
                bounds.as_ptr(),
                bounds.len(),
                table.as_ptr(),
                table.len(),
                pages.as_mut_ptr(),
                pages.len(),
            )
        };
        Refusal::from_returned(returned)?;
        Ok(pages)
    }
}
