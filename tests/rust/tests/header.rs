//! include/axp.h against the Rattle source that it declares, mechanically: the calls with their parameters, the fields of
//! the result in order, and the constants. Nothing else checks one against the other.

use axp_tests::ffi::LOST;
use std::fs;
use std::path::Path;

fn file(name: &str) -> String {
    let path = Path::new(env!("CARGO_MANIFEST_DIR")).join("../..").join(name);
    fs::read_to_string(&path).unwrap_or_else(|e| panic!("{}: {e}", path.display()))
}

/// The text without C comments, white space folded.
fn folded(text: &str) -> String {
    let mut out = String::new();
    let mut rest = text;
    while let Some(i) = rest.find("/*") {
        out.push_str(&rest[..i]);
        let end = rest[i..].find("*/").expect("a comment ends");
        rest = &rest[i + end + 2..];
    }
    out.push_str(rest);
    out.split_whitespace().collect::<Vec<_>>().join(" ")
}

/// The calls of the source, each as the C declaration that it asks for.
fn from_source(source: &str) -> Vec<String> {
    let mut all = Vec::new();
    for part in source.split("pub extern \"C\" fn ").skip(1) {
        let name = &part[..part.find('(').unwrap()];
        let parameters = &part[part.find('(').unwrap() + 1..part.find(')').unwrap()];
        let result = part[part.find("->").unwrap() + 2..].split_whitespace().next().unwrap();
        let returned = match result {
            "AxpResult" => "axp_result",
            "Written" => "axp_written",
            "Counted" => "axp_counted",
            "Stretch" => "axp_stretch",
            other => panic!("{name}: a result of type {other}"),
        };
        let c: Vec<String> = parameters
            .split(',')
            .map(str::trim)
            .filter(|p| !p.is_empty())
            .map(|p| {
                let (n, t) = p.split_once(':').unwrap();
                match t.trim() {
                    "u32" => format!("uint32_t {n}"),
                    "&[u8]" => format!("const uint8_t *{n}, size_t {n}_len"),
                    "&[Span]" => format!("const axp_span *{n}, size_t {n}_len"),
                    "&mut [u8]" => format!("uint8_t *{n}, size_t {n}_len"),
                    other => panic!("{name}: a parameter of type {other}"),
                }
            })
            .collect();
        all.push(format!("{returned} {name}({});", c.join(", ")));
    }
    all
}

fn between<'a>(text: &'a str, from: &str, to: &str) -> &'a str {
    let i = text.find(from).unwrap_or_else(|| panic!("no {from}")) + from.len();
    &text[i..i + text[i..].find(to).unwrap()]
}

#[test]
fn calls() {
    let header = folded(&file("include/axp.h"));
    let wanted = from_source(&file("crates/axp_c/src/lib.rt"));
    assert_eq!(wanted.len(), 11);
    for call in &wanted {
        assert!(header.contains(call.as_str()), "include/axp.h does not declare: {call}");
    }
    // And it declares no other.
    let declared = ["axp_result", "axp_written", "axp_counted", "axp_stretch"].map(|r| header.matches(&format!("{r} axp_")).count());
    assert_eq!(declared.iter().sum::<usize>(), wanted.len());
}

/// The fields of a C struct, and those of the Rattle struct that it is, in order.
fn fields(c: &str, source: &str, rattle: &str) -> [Vec<String>; 2] {
    let header = folded(&file("include/axp.h"));
    let declared = between(&header, &format!("typedef struct {c} {{"), "}").to_string();
    let source = file(source);
    let struct_ = between(&source, &format!("#[repr(C)]\n#[derive(Clone, Copy)]\npub struct {rattle} {{"), "}");
    let listed = |text: &str, by: char| -> Vec<String> {
        text.split(by).map(|f| f.trim().to_string()).filter(|f| !f.is_empty()).collect()
    };
    let as_c = |field: &String| {
        let (n, t) = field.strip_prefix("pub ").unwrap().split_once(": ").unwrap();
        assert_eq!(t, "u32", "{n}");
        format!("uint32_t {n}")
    };
    [listed(&declared, ';'), listed(struct_, ',').iter().map(as_c).collect()]
}

#[test]
fn result() {
    let [c, rattle] = fields("axp_result", "crates/axp_c/src/lib.rt", "AxpResult");
    assert_eq!(c, rattle);
}

#[test]
fn span() {
    let [c, rattle] = fields("axp_span", "crates/code/src/lib.rt", "Span");
    assert_eq!(c, rattle);
}

#[test]
fn file_results() {
    for (c, rattle) in [("axp_written", "Written"), ("axp_counted", "Counted"), ("axp_stretch", "Stretch")] {
        let [c, rattle] = fields(c, "crates/code/src/lib.rt", rattle);
        assert_eq!(c, rattle);
    }
}

#[test]
fn constants() {
    let header = file("include/axp.h");
    let source = file("crates/axp_c/src/lib.rt");
    let none = between(&source, "pub const NO_EXTRA: u32 = ", ";");
    assert!(header.contains(&format!("#define AXP_NO_EXTRA {none}u")));
    let definitions = file("crates/code/specs/Lost.antt");
    let lost = between(&definitions, "byte_of Lost = ", "\n");
    assert!(header.contains(&format!("#define AXP_LOST {lost}\n")));
    assert_eq!(lost, LOST.to_string());
    assert!(header.contains("#define AXP_PACKED_SIZE(n) (AXP_TRACKS * ((size_t)(n) + 2))\n"));
    // The sizes for 256 blocks.
    assert!(header.contains(&format!("#define AXP_MAX_IMAGE_SIZE {}\n", 18 * (8 * 256 + 15))));
    assert!(header.contains(&format!("#define AXP_MAX_PAYLOAD_SIZE {}\n", 14 * 256)));
    assert!(header.contains(&format!("#define AXP_MAX_PACKED_SIZE {}\n", 18 * (256 + 2))));
    // The most pairs of a table.
    let spans = file("crates/code/specs/Spans.antt");
    let most = between(&spans, "too_long : ", " < table.count");
    assert!(header.contains(&format!("#define AXP_MAX_SPANS {most}\n")));
    // The limits and sizes of a cartridge file.
    let files = file("crates/code/specs/Files.antt");
    for (name, constant) in [("most_bytes = ", "AXP_MAX_FILE_SIZE"), ("most_entries = ", "AXP_MAX_ENTRIES")] {
        assert!(header.contains(&format!("#define {constant} {}\n", between(&files, name, "\n"))));
    }
    assert!(files.contains("entry_size n = 6 + packed_size n\n"));
    assert!(header.contains("#define AXP_ENTRY_SIZE(n) (6 + AXP_PACKED_SIZE(n))\n"));
    assert!(header.contains(&format!("#define AXP_MAX_ENTRY_SIZE {}\n", 6 + 18 * (256 + 2))));
    assert!(files.contains("directory_size count = 2 + 8 * count\n"));
    assert!(header.contains("#define AXP_DIRECTORY_SIZE(k) (2 + 8 * (size_t)(k))\n"));
    // The ceilings are 0 to 2.
    assert!(file("crates/code/specs/Numbers.antt").contains("number = 12; detail = 0; applies = 2 < ceiling }\n"));
    assert!(header.contains("#define AXP_MAX_CEILING 2\n"));
    // The numbers are document 01's, 0 to 7 in order, and 8 to 12 of document 02.
    let list = folded(between(&header, "enum axp_answer {", "};"));
    let values: Vec<u32> = list.split(',').map(|e| e.split('=').nth(1).unwrap().trim().parse().unwrap()).collect();
    assert_eq!(values, (0..13).collect::<Vec<u32>>());
}
