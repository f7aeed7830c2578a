//! What stands twice: the sizes, in the header and here; README's program, there and in `examples/`.

use std::fs;

fn text(file: &str) -> String {
    let path = format!("{}/../{file}", env!("CARGO_MANIFEST_DIR"));
    fs::read_to_string(&path).unwrap_or_else(|error| panic!("{file}: {error}"))
}

#[test]
fn sizes() {
    let header = text("include/ngamsothul.h");
    let sizes = [
        ("MOST_AXES", ngamsothul::MOST_AXES),
        ("FEWEST_NODES", ngamsothul::FEWEST_NODES),
        ("MOST_NODES", ngamsothul::MOST_NODES),
        ("MOST_CELLS", ngamsothul::MOST_CELLS),
        ("MOST_VALUES", ngamsothul::MOST_VALUES),
        ("HEADER_BYTES", ngamsothul::HEADER_BYTES),
        ("MOST_BYTES", ngamsothul::MOST_BYTES),
        ("MOST_RECORDS", ngamsothul::MOST_RECORDS),
        ("STACK_BYTES", ngamsothul::STACK_BYTES),
        ("LOAD_STACK_BYTES", ngamsothul::LOAD_STACK_BYTES),
        ("COUNT_STACK_BYTES", ngamsothul::COUNT_STACK_BYTES),
    ];
    for (name, size) in sizes {
        let line = header.lines().find(|line| line.trim().starts_with(&format!("NG_{name} = "))).expect(name);
        let number = line.split(['=', ',', '/']).nth(1).expect(name).trim();
        assert_eq!(number.parse(), Ok(size), "NG_{name}");
    }
}

#[test]
fn readme_program() {
    let readme = text("README.md");
    let shown = readme.split("```rust\n").nth(1).and_then(|rest| rest.split("```").next()).expect("a Rust program");
    assert_eq!(shown, text("rust/examples/readme.rs"));
}
