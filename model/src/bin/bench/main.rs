//! `make bench`: times the proved code beside the model, beside one plain pass over the same words,
//! and beside SQLite in memory, in one run. It prints what it finds, and writes
//! docs/performance.svg and docs/PERFORMANCE.md.

mod block;
mod call;
mod cases;
mod checking;
mod clearing;
mod clock;
mod floor;
mod growth;
mod judges;
mod limits;
mod machine;
mod page;
mod picture;
mod session;
mod sheet;
#[cfg(feature = "sqlite")]
mod sqlite;

fn main() {
    let measured = page::Measured {
        small: call::rows(&cases::small()),
        busy: call::rows(&cases::busy()),
        busy_with_room: call::rows(&cases::busy_with_room()),
        busy_and_fast: call::rows(&cases::busy_and_fast()),
        busy_and_mixed: call::rows(&cases::busy_and_mixed()),
        clearings: clearing::clearings(),
        checks: checking::checks(),
        sheets: sheet::rows(),
        slowest: judges::slowest(),
        versions: growth::versions(),
        messages: growth::messages(),
        items: growth::items(),
        sheet: sheet::growth(),
        logs: judges::growth(),
    };
    let page = page::page(&measured);
    print!("{page}");
    page::write(&page).expect("docs/PERFORMANCE.md");
    picture::write(&measured).expect("docs/performance.svg");
}
