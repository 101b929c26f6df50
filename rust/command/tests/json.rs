//! `--json`: each command's answer is one line of JSON in the shape that docs/USE.md gives.

mod shell;

use shell::{Folder, MODEL};

/// What follows a JSON value at the front of the text; none if there is no value.
fn after_value(text: &str) -> Option<&str> {
    if let Some(rest) = text.strip_prefix('{') {
        return after_items(rest, '}', |item| {
            after_value(after_text(item)?.strip_prefix(':')?)
        });
    }
    if let Some(rest) = text.strip_prefix('[') {
        return after_items(rest, ']', after_value);
    }
    if text.starts_with('"') {
        return after_text(text);
    }
    let end = text.find([',', ']', '}', '\n']).unwrap_or(text.len());
    let (word, rest) = text.split_at(end);
    let number = !word.is_empty() && word.bytes().all(|digit| digit.is_ascii_digit());
    (number || ["null", "true", "false"].contains(&word)).then_some(rest)
}

fn after_items(mut text: &str, close: char, item: impl Fn(&str) -> Option<&str>) -> Option<&str> {
    if let Some(rest) = text.strip_prefix(close) {
        return Some(rest);
    }
    loop {
        text = item(text)?;
        if let Some(rest) = text.strip_prefix(close) {
            return Some(rest);
        }
        text = text.strip_prefix(',')?;
    }
}

fn after_text(text: &str) -> Option<&str> {
    let rest = text.strip_prefix('"')?;
    let end = rest.find('"')?;
    // No answer has a quote or a control character inside a text.
    (!rest[..end].contains(['\\', '\n'])).then(|| &rest[end + 1..])
}

fn json(folder: &Folder, line: &str, status: i32) -> String {
    let ended = folder.run(line);
    assert_eq!(ended.status, status, "{line}: {}", ended.error);
    let text = ended.text();
    assert_eq!(after_value(&text), Some("\n"), "{line}: {text}");
    text
}

const LOAD: &str = r#"{"thread":1,"pc":0,"word":"LOAD","argument":0,"indirect":false,"accu":0,"mem":0,"adr":0,"val":0,"full":0,"written":null}"#;
const JZ: &str = r#"{"thread":1,"pc":1,"word":"JZ","argument":3,"indirect":false,"accu":0,"mem":0,"adr":0,"val":0,"full":0,"written":null}"#;
const EXIT: &str = r#"{"thread":1,"pc":3,"word":"EXIT","argument":7,"indirect":false,"accu":0,"mem":0,"adr":0,"val":0,"full":0,"written":null}"#;

fn shortest() -> String {
    format!(r#""steps":3,"end":"code","code":7,"trace":[{LOAD},{JZ},{EXIT}]"#)
}

#[test]
fn a_set() {
    let folder = Folder::new("json_set");
    folder.put("set.txt", b"LOAD [7]\nHALT\n.\n7 9\n");
    assert_eq!(
        json(&folder, "read set.txt --json", 0),
        concat!(
            r#"{"threads":[[{"pc":0,"word":"LOAD","argument":7,"indirect":true},"#,
            r#"{"pc":1,"word":"HALT","argument":null,"indirect":false}]],"#,
            r#""map":[{"address":7,"value":9}]}"#,
            "\n"
        )
    );
}

#[test]
fn runs() {
    let folder = Folder::with_example("json_runs");
    let run = format!("{{{}}}\n", shortest());
    let line = "simulate set.txt 1 1 1 --json -o trace";
    assert_eq!(json(&folder, line, 0), run);
    assert_eq!(json(&folder, "show trace --json", 0), run);
    let replayed = "{\"steps\":3,\"end\":\"code\",\"code\":7}\n";
    assert_eq!(json(&folder, "replay set.txt trace --json", 0), replayed);
    // A flush, what it wrote, and a run that goes on.
    let open = json(&folder, "simulate set.txt 0 0 f0 1 --json", 0);
    assert!(open.starts_with(r#"{"steps":4,"end":"open","code":null,"trace":[{"#));
    let flush = r#"{"thread":0,"pc":2,"word":"FLUSH","argument":null,"indirect":false,"accu":1,"mem":0,"adr":0,"val":1,"full":1,"written":null}"#;
    assert!(open.contains(flush), "{open}");
    assert!(open.contains(r#""written":{"address":0,"value":1}}]}"#));
    let listed = json(&folder, "list --json set.txt", 0);
    assert!(listed.starts_with(r#"{"steps":5,"end":"code","code":7,"trace":[{"#));
    // A trace tells its end only by an EXIT.
    folder.text("simulate set.txt 0 -o trace");
    let shown = json(&folder, "show trace --json", 0);
    assert!(shown.starts_with(r#"{"steps":1,"end":null,"code":null,"trace":[{"#));
}

#[test]
fn tables_models_and_pictures() {
    let folder = Folder::with_example("json_models");
    let size = folder.text("encode set.txt 3");
    let words: Vec<&str> = size.split(' ').collect();
    let table = format!("{{\"records\":{},\"bytes\":{}}}\n", words[0], words[2]);
    assert_eq!(json(&folder, "encode set.txt 3 --json", 0), table);
    assert_eq!(json(&folder, "encode set.txt 3 -o t --json", 0), table);
    let satisfies = "{\"satisfies\":true}\n";
    assert_eq!(json(&folder, "check set.txt 3 model --json", 0), satisfies);
    let map = r#""map":[{"address":0,"value":0}]"#;
    let decoded = format!("{{{},{map}}}\n", shortest());
    let line = "decode set.txt 3 model --json -o trace";
    assert_eq!(json(&folder, line, 0), decoded);
    let drawn = "{\"steps\":3}\n";
    assert_eq!(json(&folder, "draw trace -o d.svg --json", 0), drawn);
}

#[test]
fn finding() {
    let folder = Folder::with_example("json_find");
    let found = json(&folder, "find set.txt 9 --search --json", 1);
    let head = r#"{"answer":"fails","bound":9,"by":"search","states":"#;
    let map = r#""map":[{"address":0,"value":0}]"#;
    assert!(found.starts_with(head), "{found}");
    assert!(
        found.ends_with(&format!(",{},{map}}}\n", shortest())),
        "{found}"
    );
    let none = json(&folder, "find set.txt 2 --search --json", 0);
    let head = r#"{"answer":"none","bound":2,"by":"search","states":"#;
    assert!(none.starts_with(head), "{none}");
    folder.put("free.txt", b"LOAD 5\nJZ 3\nEXIT 1\nEXIT 0\n.\n");
    assert_eq!(
        json(&folder, "find free.txt 9 --search --json", 4),
        concat!(
            r#"{"answer":"unknown","bound":9,"by":"search","states":3,"#,
            r#""why":"it took cells that the map lacks as 0: 5"}"#,
            "\n"
        )
    );
    if shell::z3_installed("json: find") {
        let found = json(&folder, "find set.txt 3 --json", 1);
        let head = r#"{"answer":"fails","bound":3,"by":"Z3 version "#;
        assert!(found.starts_with(head), "{found}");
        assert!(found.ends_with(&format!(",\"states\":null,{},{map}}}\n", shortest())));
    }
}

#[test]
fn refusals() {
    let folder = Folder::with_example("json_refusals");
    let refused = |number: u8, place: u32, meaning: &str| {
        format!(r#""refused":{{"number":{number},"place":{place},"meaning":"{meaning}"}}}}"#) + "\n"
    };
    let not_permitted = "choice not permitted, or machine has exited";
    let answer = json(&folder, "simulate set.txt 0 f0 --json", 3);
    assert_eq!(answer, format!("{{{}", refused(12, 1, not_permitted)));
    folder.put("bad.txt", b"HALT\nFOO\n.\n");
    let malformed = refused(2, 2, "line malformed or forbidden byte");
    let answer = json(&folder, "read bad.txt --json", 3);
    assert_eq!(answer, format!("{{{malformed}"));
    let no_steps = r#"{"steps":0,"end":null,"code":null,"trace":[],"#;
    let answer = json(&folder, "list bad.txt --json", 3);
    assert_eq!(answer, format!("{no_steps}{malformed}"));
    folder.put("lacks.txt", b"ADDI 2\nLOAD 5\n.\n");
    let answer = json(&folder, "list lacks.txt --json", 3);
    let lacks = refused(14, 1, "first cell read that the map lacks");
    assert!(answer.starts_with(r#"{"steps":1,"end":null,"code":null,"trace":[{"#));
    assert!(answer.ends_with(&lacks), "{answer}");
    folder.put("model", &[&MODEL[..], &[0]].concat());
    let answer = json(&folder, "check set.txt 3 model --json", 3);
    assert_eq!(
        answer,
        format!("{{{}", refused(15, 0, "model not as it must be"))
    );
    // A 16 says what its record belongs to.
    for (model, place, part) in [
        (vec![0; 12], 49, r#","step":0"#),
        ([&MODEL[..], &[0, 0, 1, 0]].concat(), 16, r#","address":0"#),
        (vec![1, 0, 0, 0, 1, 0, 0, 0, 0, 0, 1, 0], 229, ""),
    ] {
        folder.put("model", &model);
        let meaning = format!(r#""meaning":"constraint or goal that is 0"{part}"#);
        let refused = format!(r#"{{"refused":{{"number":16,"place":{place},{meaning}}}}}"#);
        for line in [
            "check set.txt 3 model --json",
            "decode set.txt 3 model --json",
        ] {
            assert_eq!(json(&folder, line, 3), format!("{refused}\n"));
        }
    }
    // Other faults have their line alone.
    let ended = folder.run("read missing --json");
    assert_eq!((ended.status, ended.text().as_str()), (2, ""));
}
