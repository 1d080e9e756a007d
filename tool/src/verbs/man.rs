//! `man`: the man page.

use serde_json::json;

use crate::man;
use crate::output::Report;

pub fn run() -> Report {
    let page = man::page();
    let members = json!({"man": page});
    Report::new(page, members)
}
