//! The functions of GLPK that are used, as `glpk.h` declares them, and the two of `options.c`.

use std::ffi::{c_char, c_double, c_int, c_void};

/// `glp_prob`.
#[repr(C)]
pub struct Prob {
    _private: [u8; 0],
}

/// `glp_tree`.
#[repr(C)]
pub struct Tree {
    _private: [u8; 0],
}

pub const MAX: c_int = 2;
pub const IV: c_int = 2;
pub const FR: c_int = 1;
pub const LO: c_int = 2;
pub const UP: c_int = 3;
pub const DB: c_int = 4;
pub const FX: c_int = 5;
pub const OPT: c_int = 5;
pub const IPREPRO: c_int = 7;
pub const MPS_DECK: c_int = 1;
pub const MPS_FILE: c_int = 2;

pub type Hook = extern "C" fn(*mut c_void, *const c_char) -> c_int;
pub type AtNode = extern "C" fn(*mut Tree, *mut c_void);

unsafe extern "C" {
    pub fn glp_term_hook(hook: Option<Hook>, info: *mut c_void);
    pub fn glp_create_prob() -> *mut Prob;
    pub fn glp_delete_prob(p: *mut Prob);
    pub fn glp_copy_prob(to: *mut Prob, from: *mut Prob, names: c_int);
    pub fn glp_set_prob_name(p: *mut Prob, name: *const c_char);
    pub fn glp_read_mps(
        p: *mut Prob,
        format: c_int,
        parm: *const c_void,
        path: *const c_char,
    ) -> c_int;
    pub fn glp_write_mps(
        p: *mut Prob,
        format: c_int,
        parm: *const c_void,
        path: *const c_char,
    ) -> c_int;
    pub fn glp_read_lp(p: *mut Prob, parm: *const c_void, path: *const c_char) -> c_int;
    pub fn glp_write_lp(p: *mut Prob, parm: *const c_void, path: *const c_char) -> c_int;
    pub fn glp_get_num_rows(p: *mut Prob) -> c_int;
    pub fn glp_get_num_cols(p: *mut Prob) -> c_int;
    pub fn glp_add_rows(p: *mut Prob, count: c_int) -> c_int;
    pub fn glp_add_cols(p: *mut Prob, count: c_int) -> c_int;
    pub fn glp_del_rows(p: *mut Prob, count: c_int, rows: *const c_int);
    pub fn glp_get_row_name(p: *mut Prob, i: c_int) -> *const c_char;
    pub fn glp_get_col_name(p: *mut Prob, j: c_int) -> *const c_char;
    pub fn glp_set_row_name(p: *mut Prob, i: c_int, name: *const c_char);
    pub fn glp_set_col_name(p: *mut Prob, j: c_int, name: *const c_char);
    pub fn glp_get_row_type(p: *mut Prob, i: c_int) -> c_int;
    pub fn glp_get_row_lb(p: *mut Prob, i: c_int) -> c_double;
    pub fn glp_get_row_ub(p: *mut Prob, i: c_int) -> c_double;
    pub fn glp_get_col_lb(p: *mut Prob, j: c_int) -> c_double;
    pub fn glp_get_col_ub(p: *mut Prob, j: c_int) -> c_double;
    pub fn glp_set_row_bnds(p: *mut Prob, i: c_int, kind: c_int, lower: c_double, upper: c_double);
    pub fn glp_set_col_bnds(p: *mut Prob, j: c_int, kind: c_int, lower: c_double, upper: c_double);
    pub fn glp_get_col_kind(p: *mut Prob, j: c_int) -> c_int;
    pub fn glp_set_col_kind(p: *mut Prob, j: c_int, kind: c_int);
    pub fn glp_get_obj_name(p: *mut Prob) -> *const c_char;
    pub fn glp_get_obj_dir(p: *mut Prob) -> c_int;
    pub fn glp_get_obj_coef(p: *mut Prob, j: c_int) -> c_double;
    pub fn glp_set_obj_coef(p: *mut Prob, j: c_int, value: c_double);
    pub fn glp_get_mat_row(
        p: *mut Prob,
        i: c_int,
        columns: *mut c_int,
        values: *mut c_double,
    ) -> c_int;
    pub fn glp_set_mat_row(
        p: *mut Prob,
        i: c_int,
        count: c_int,
        columns: *const c_int,
        values: *const c_double,
    );
    pub fn glp_get_status(p: *mut Prob) -> c_int;
    pub fn glp_get_obj_val(p: *mut Prob) -> c_double;
    pub fn glp_mip_status(p: *mut Prob) -> c_int;
    pub fn glp_mip_col_val(p: *mut Prob, j: c_int) -> c_double;
    pub fn glp_ios_reason(tree: *mut Tree) -> c_int;
    pub fn glp_ios_get_prob(tree: *mut Tree) -> *mut Prob;
    pub fn glp_ios_tree_size(
        tree: *mut Tree,
        active: *mut c_int,
        all: *mut c_int,
        total: *mut c_int,
    );
    pub fn astrolabe_cli_simplex(p: *mut Prob) -> c_int;
    pub fn astrolabe_cli_intopt(p: *mut Prob, at_node: AtNode, info: *mut c_void) -> c_int;
}
