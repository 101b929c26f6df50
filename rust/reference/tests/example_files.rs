//! The files of `examples/litmus` and `examples/counters` are those that reference holds. Their answers
//! are compared where the library reads all examples.

use reference::example_files::all;
use std::fs;
use std::path::Path;

#[test]
fn examples_are_document_002s() {
    let folder = Path::new(env!("CARGO_MANIFEST_DIR")).join("../../examples");
    for file in all() {
        let text = fs::read_to_string(folder.join(&file.path)).expect("the example is there");
        let (first, rest) = text.split_once('\n').expect("a first line");
        let shows = first.rsplit_once(": ").map(|(shows, _)| shows);
        assert_eq!(shows, Some(format!("# {}", file.shows).as_str()));
        assert_eq!(rest, file.rest, "{}", file.path);
    }
    let count = |part: &str| fs::read_dir(folder.join(part)).expect("a folder").count();
    assert_eq!(count("litmus") + count("counters"), all().len());
}
