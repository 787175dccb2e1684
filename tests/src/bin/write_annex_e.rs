//! Makes the rows and counts of `docs/ANNEX_E.md` anew: `tools/cargo --own run --manifest-path tests/Cargo.toml --bin write_annex_e`.
use against_the_world::annex::{self, page};
use against_the_world::command::file;

fn main() {
    let tables = annex::tables();
    let found = annex::compared(&tables);
    assert!(found.wrong.is_empty(), "{:#?}", found.wrong);
    std::fs::write(file(page::PAGE), page::made(&found, &annex::text(page::PAGE))).unwrap();
}
