//! `humpelkaas map`: what guests reach, as a table, as JSON and as a picture.
mod common;

use common::{Bench, Kept, Memory, Ran, Registers};
use serde_json::{json, Value};

/// The sample's two guests, with words of the capture that differ.
fn two_guests(words: &[(u64, u64)]) -> Bench {
    let bench = Bench::sample();
    let memory = Memory { base: 0x4000_0000, bytes: bench.bytes("capture.bin") };
    bench.write("capture.bin", memory.with(words).bytes);
    bench
}

const BOTH: &str = "map --capture capture.bin --base 0x40000000 --registers plate.registers --registers spectra.registers";
const GRANTS: &str = "--grants plate.grants --grants spectra.grants";

fn both(bench: &Bench, more: &str) -> Ran {
    bench.run(&format!("{BOTH} {more}"))
}

/// One guest that has no stage 1 of its own, with document 01's stage 2 and words that differ.
fn one_guest(words: &[(u64, u64)]) -> Bench {
    Bench::new(&Memory::cases().with(words), &Registers::cases())
}

/// The names of elements that are open at a place of a picture, which must end with none. Attributes and text are looked at too.
fn check_xml(text: &str) {
    let mut open: Vec<&str> = Vec::new();
    let mut rest = text;
    while let Some(start) = rest.find('<') {
        check_text(&rest[..start]);
        let end = rest.find('>').expect("a tag that ends");
        let tag = &rest[start + 1..end];
        assert!(!tag.contains('<'), "a tag within <{tag}>");
        if let Some(name) = tag.strip_prefix('/') {
            assert_eq!(open.pop(), Some(name), "</{name}> ends what was not begun last");
        } else {
            let name = tag.split_whitespace().next().expect("a tag with a name").trim_end_matches('/');
            check_attributes(tag.trim_end_matches('/')[name.len()..].trim());
            if !tag.ends_with('/') {
                open.push(name);
            }
        }
        rest = &rest[end + 1..];
        assert!(!open.is_empty() || rest.trim().is_empty(), "more than one root");
    }
    assert_eq!((open.as_slice(), rest.trim()), (&[][..], ""), "elements that do not end");
}

fn check_text(text: &str) {
    for after in text.split('&').skip(1) {
        assert!(["amp;", "lt;", "gt;", "quot;", "apos;", "#"].iter().any(|entity| after.starts_with(entity)), "a bare & in {text}");
    }
}

/// Attributes are NAME="VALUE", none twice, and those that place something are numbers of a picture's size.
fn check_attributes(attributes: &str) {
    let mut seen = Vec::new();
    let mut rest = attributes;
    while !rest.is_empty() {
        let (name, after) = rest.split_once("=\"").unwrap_or_else(|| panic!("no attribute: {rest}"));
        let (value, after) = after.split_once('"').unwrap_or_else(|| panic!("an attribute without an end: {rest}"));
        assert!(!seen.contains(&name), "{name} twice in {attributes}");
        seen.push(name);
        check_text(value);
        if ["x", "y", "x1", "x2", "y1", "y2", "width", "height"].contains(&name) && !value.ends_with('%') {
            let number: f64 = value.parse().unwrap_or_else(|_| panic!("{name} is {value}"));
            assert!((0.0..1e6).contains(&number), "{name} is {value}");
        }
        rest = after.trim_start();
    }
}

/// Draws the picture, checks it, and gives its text.
fn picture(bench: &Bench, words: &str, status: i32) -> String {
    bench.run(&format!("{words} --svg picture.svg")).ends(status);
    let picture = bench.text("picture.svg");
    assert!(picture.starts_with("<svg xmlns=\"http://www.w3.org/2000/svg\""), "{picture}");
    check_xml(&picture);
    picture
}

const SAMPLE: &str = "\
plate
  IPA              physical                 size  rights  attributes
  0x1000-0x3fff    0x40003000-0x40005fff  12 KiB  rwx     Normal Write-Back, inner shareable
  0x50000-0x50fff  0x90000-0x90fff         4 KiB  rwx     Normal Write-Back, inner shareable
  stage 2's tables, granule 4 KiB: 0x40000000-0x40002fff
spectra
  IPA                    physical                  size  rights  attributes
  0x10000-0x1ffff        0x40020000-0x4002ffff   64 KiB  rwx     Normal Write-Back, inner shareable
  0x50000-0x5ffff        0xa0000-0xaffff         64 KiB  r-x     Normal Write-Back, inner shareable
  0x20000000-0x3fffffff  0x80000000-0x9fffffff  512 MiB  rw-     Normal Write-Back, inner shareable
  stage 2's tables, granule 64 KiB: 0x40008000-0x40009fff, 0x40010000-0x4001ffff
";

#[test]
fn the_sample() {
    let bench = Bench::sample();
    let expected = format!("{SAMPLE}no two guests reach the same memory, and none reaches stage 2's tables\n");
    both(&bench, "").ends(0).prints(&expected).says("");
    both(&bench, GRANTS).ends(0).prints(&expected).says("");
    let picture = picture(&bench, &format!("{BOTH} {GRANTS}"), 0);
    for said in [
        "plate was granted 0x40003000-0x40005fff",
        "plate reaches 0x90000-0x90fff",
        "spectra reaches 0x80000000-0x9fffffff",
        "stage 2 of spectra at 0x40010000-0x4001ffff",
    ] {
        assert!(picture.contains(&format!("<title>{said}</title>")), "{said}");
    }
}

#[test]
fn the_sample_in_json() {
    let json = both(&Bench::sample(), "--json").ends(0).json();
    let normal = |ipa: [&str; 2], physical: [&str; 2], size: &str, rights: &str| {
        json!({
            "ipa": ipa,
            "physical": physical,
            "size": size,
            "rights": rights,
            "memory": "Normal Write-Back",
            "shareability": "inner shareable",
        })
    };
    let plate = [
        normal(["0x1000", "0x3fff"], ["0x40003000", "0x40005fff"], "0x3000", "rwx"),
        normal(["0x50000", "0x50fff"], ["0x90000", "0x90fff"], "0x1000", "rwx"),
    ];
    let spectra = [
        normal(["0x10000", "0x1ffff"], ["0x40020000", "0x4002ffff"], "0x10000", "rwx"),
        normal(["0x50000", "0x5ffff"], ["0xa0000", "0xaffff"], "0x10000", "r-x"),
        normal(["0x20000000", "0x3fffffff"], ["0x80000000", "0x9fffffff"], "0x20000000", "rw-"),
    ];
    let guest = |guest: &str, mapped: &[Value], granule: &str, tables: Value| json!({ "guest": guest, "mapped": mapped, "granule": granule, "tables": tables, "absent": [], "unsettled": [] });
    let expected = json!({
        "guests": [
            guest("plate", &plate, "0x1000", json!([["0x40000000", "0x40002fff"]])),
            guest("spectra", &spectra, "0x10000", json!([["0x40008000", "0x40009fff"], ["0x40010000", "0x4001ffff"]])),
        ],
        "findings": [],
        "short_banks": [],
        "out_of_scope": [],
        "warning": null,
    });
    assert_eq!(json, expected);
}

/// The second guest has a page of 64 KiB that begins with the first one's of 4 KiB, which is beyond its own grants.
#[test]
fn two_guests_that_overlap() {
    let bench = two_guests(&[(0x4001_0030, 0x9_07ff)]);
    let overlap = "0x90000-0x90fff: plate and spectra both reach this";
    let beyond = "0x90000-0x9ffff: spectra reaches this beyond its grants";
    let ran = both(&bench, "").ends(1);
    assert_eq!(ran.last_line(), format!("! {overlap}"));
    let ran = both(&bench, GRANTS).ends(1);
    assert!(ran.stdout.ends_with(&format!("! {overlap}\n! {beyond}\n")), "{}", ran.stdout);
    assert!(!ran.stdout.contains("no two guests"));
    let json = both(&bench, &format!("{GRANTS} --json")).ends(1).json();
    let finding = |last: &str, words: &str| json!({ "physical": ["0x90000", last], "words": words });
    let findings =
        json!([finding("0x90fff", "plate and spectra both reach this"), finding("0x9ffff", "spectra reaches this beyond its grants")]);
    assert_eq!(json["findings"], findings);
    let picture = picture(&bench, &format!("{BOTH} {GRANTS}"), 1);
    assert!(picture.contains(overlap) && picture.contains(beyond), "{picture}");
}

/// A part of a block that another guest has is what is told, not all of the block.
#[test]
fn an_overlap_within_a_block() {
    let bench = two_guests(&[(0x4000_2288, 0x8010_07ff)]);
    let ran = both(&bench, "").ends(1);
    assert_eq!(ran.last_line(), "! 0x80100000-0x80100fff: plate and spectra both reach this");
}

/// A guest that reaches its own stage 2, and of the other's the last 4 KiB of its root and of its table of 64 KiB.
#[test]
fn a_guest_that_reaches_tables() {
    // The page at 0x40000000 is one that no access is permitted to.
    let pages = [(0x4000_2288, 0x4000_17ff), (0x4000_2290, 0x4000_97ff), (0x4000_2298, 0x4001_f7ff), (0x4000_22a0, 0x4000_073f)];
    let bench = two_guests(&pages);
    let own = "0x40001000-0x40001fff: plate reaches stage 2 tables of plate";
    let others = [
        "0x40009000-0x40009fff: plate reaches stage 2 tables of spectra",
        "0x4001f000-0x4001ffff: plate reaches stage 2 tables of spectra",
    ];
    let ran = both(&bench, "").ends(1);
    let said = format!("0x40010000-0x4001ffff\n! {own}\n! {}\n! {}\n", others[0], others[1]);
    assert!(ran.stdout.ends_with(&said), "{}", ran.stdout);
    let picture = picture(&bench, BOTH, 1);
    assert!(picture.contains(own) && others.iter().all(|other| picture.contains(other)), "{picture}");
    let alone = "map --capture capture.bin --base 0x40000000 --registers plate.registers";
    assert_eq!(bench.run(alone).ends(1).last_line(), format!("! {own}"));
    assert_eq!(bench.run(&format!("{alone} --json")).ends(1).json()["findings"].as_array().unwrap().len(), 1);
}

/// A page of 64 KiB that has all of the other guest's tables in it, and the guest's own root.
#[test]
fn a_large_page_with_tables() {
    let ran = both(&two_guests(&[(0x4001_0030, 0x4000_07ff)]), "").ends(1);
    let said = "\
! 0x40003000-0x40005fff: plate and spectra both reach this
! 0x40000000-0x40002fff: spectra reaches stage 2 tables of plate
! 0x40008000-0x40009fff: spectra reaches stage 2 tables of spectra
";
    assert!(ran.stdout.ends_with(said), "{}", ran.stdout);
}

#[test]
fn a_guest_beyond_its_grants() {
    let bench = Bench::cases();
    // The middle of three pages is granted, and nothing else.
    bench.write("grants", "0x40004000 0x1000\n");
    let said = [
        "! 0x90000-0x90fff: guest reaches this beyond its grants\n",
        "! 0x40003000-0x40003fff: guest reaches this beyond its grants\n",
        "! 0x40005000-0x40005fff: guest reaches this beyond its grants\n",
    ];
    let ran = bench.over("map --grants grants").ends(1);
    assert!(ran.stdout.ends_with(&said.concat()), "{}", ran.stdout);
    let picture = picture(&bench, &bench.words("map --grants grants"), 1);
    for said in said {
        assert!(picture.contains(said.trim_start_matches("! ").trim_end()), "{said}");
    }
    bench.write("grants", "0x90000 0x1000\n0x40003000 0x3000\n");
    bench.over("map --grants grants").ends(0);
}

/// Entry 1 of the root leads out of the capture: IPAs from 1 GiB on, of which nothing is known.
#[test]
fn absent_tables() {
    let bench = one_guest(&[(0x4000_0008, 0x5000_0003)]);
    let said = "  0x40000000-0x7fffffff: not in the capture (first missing: the descriptor at 0x50000000)\n";
    let ran = bench.over("map").ends(1).shows(&[said]);
    assert!(!ran.stdout.contains("no two guests"), "{}", ran.stdout);
    let json = bench.over("map --json").ends(1).json();
    assert_eq!(json["guests"][0]["absent"], json!([{ "ipa": ["0x40000000", "0x7fffffff"], "descriptor": "0x50000000" }]));
    let picture = picture(&bench, &bench.words("map"), 1);
    assert!(picture.contains("not in the capture"), "the picture does not say that tables are absent:\n{picture}");
}

/// With two guests, one of whose tables are absent, nothing can be said of what both reach.
#[test]
fn absent_tables_of_one_of_two() {
    let bench = two_guests(&[(0x4000_0008, 0x5000_0003)]);
    let ran = both(&bench, "").ends(1);
    assert!(!ran.stdout.contains("no two guests"), "{}", ran.stdout);
}

/// A page of which Arm leaves open what it is.
#[test]
fn unsettled_pages() {
    let bench = one_guest(&[(0x4000_2280, 0x9_07f3)]);
    bench.over("map").ends(1).shows(&["  0x50000-0x50fff: unsettled by Arm\n"]);
    assert_eq!(bench.over("map --json").ends(1).json()["guests"][0]["unsettled"], json!([["0x50000", "0x50fff"]]));
    let picture = picture(&bench, &bench.words("map"), 1);
    assert!(picture.contains("unsettled"), "the picture does not say that pages are unsettled:\n{picture}");
}

/// Blocks of both sizes and pages, joined where IPAs, physical addresses, rights and attributes go on alike.
#[test]
fn blocks_pages_and_joined_ranges() {
    let bench = one_guest(&[
        // 2 MiB each from 0x200000 and 0x400000 on, one after the other in physical memory.
        (0x4000_1008, 0x8000_07fd),
        (0x4000_1010, 0x8020_07fd),
        // A table of pages from 0x600000 on: two that go on after the blocks, one elsewhere, one to be read, one of Device memory,
        // one that nobody may use, and one without an access flag.
        (0x4000_1018, 0x4000_6003),
        (0x4000_6000, 0x8040_07ff),
        (0x4000_6008, 0x8040_17ff),
        (0x4000_6010, 0x8050_07ff),
        (0x4000_6018, 0x8050_177f),
        (0x4000_6020, 0x8050_27c7),
        (0x4000_6028, 0x8050_373f),
        (0x4000_6030, 0x8050_43ff),
        // The last page of that table, and a block after it that goes on in physical memory.
        (0x4000_6ff8, 0x805f_f7ff),
        (0x4000_1020, 0x8060_07fd),
        // 1 GiB, and the last one that there is.
        (0x4000_0008, 0x1_0000_07fd),
        (0x4000_0ff8, 0x1_4000_07fd),
    ]);
    let expected = "\
guest
  IPA                        physical                     size  rights  attributes
  0x1000-0x3fff              0x40003000-0x40005fff      12 KiB  rwx     Normal Write-Back, inner shareable
  0x50000-0x50fff            0x90000-0x90fff             4 KiB  rwx     Normal Write-Back, inner shareable
  0x200000-0x601fff          0x80000000-0x80401fff    4104 KiB  rwx     Normal Write-Back, inner shareable
  0x602000-0x602fff          0x80500000-0x80500fff       4 KiB  rwx     Normal Write-Back, inner shareable
  0x603000-0x603fff          0x80501000-0x80501fff       4 KiB  r-x     Normal Write-Back, inner shareable
  0x604000-0x604fff          0x80502000-0x80502fff       4 KiB  rw-     Device nGnRE, outer shareable
  0x7ff000-0x9fffff          0x805ff000-0x807fffff    2052 KiB  rwx     Normal Write-Back, inner shareable
  0x40000000-0x7fffffff      0x100000000-0x13fffffff     1 GiB  rwx     Normal Write-Back, inner shareable
  0x7fc0000000-0x7fffffffff  0x140000000-0x17fffffff     1 GiB  rwx     Normal Write-Back, inner shareable
  stage 2's tables, granule 4 KiB: 0x40000000-0x40002fff, 0x40006000-0x40006fff
";
    bench.over("map").ends(0).prints(expected).says("");
    picture(&bench, &bench.words("map"), 0);
}

/// A root of two tables: its entry 600 is in the second.
#[test]
fn a_long_root() {
    let memory = Memory::zeros(0x4000_0000, 0x8000).with(&[(0x4000_12c0, 0x1_0000_07fd)]);
    let bench = Bench::new(&memory, &Registers { vtcr_el2: 0x2_0058, ..Registers::cases() });
    bench.over("map").ends(0).shows(&[
        "  0x9600000000-0x963fffffff  0x100000000-0x13fffffff  1 GiB  rwx     Normal Write-Back, inner shareable\n",
        "  stage 2's tables, granule 4 KiB: 0x40000000-0x40001fff\n",
    ]);
}

/// What a guest's own registers say of its stage 1 does not count: it may change them.
#[test]
fn stage_1_does_not_count() {
    let expected = Bench::cases().over("map").ends(0).stdout;
    let off = Registers { sctlr_el1: 0, ..Registers::cases() };
    let tagged = Registers { tcr_el1: Registers::cases().tcr_el1 | 3 << 37, ..Registers::cases() };
    let wrong = Registers { tcr_el1: 0, ttbr0_el1: u64::MAX, ..Registers::cases() };
    for registers in [off, tagged, wrong] {
        Bench::new(&Memory::cases(), &registers).over("map").ends(0).prints(&expected);
    }
}

#[test]
fn a_name_with_letters_of_xml() {
    let bench = Bench::cases();
    bench.write("a<b>&\"c'.registers", Registers::cases().text());
    let words = "map --capture capture.bin --base 0x40000000 --registers a<b>&\"c'.registers";
    bench.run(words).ends(0).shows(&["a<b>&\"c'\n"]);
    assert!(picture(&bench, words, 0).contains("a&lt;b&gt;&amp;"));
}

/// A picture never takes the place of what was read.
#[test]
fn a_picture_over_an_input() {
    let bench = Bench::cases();
    bench.write("grants", "0x90000 0x1000\n0x40003000 0x3000\n");
    for input in ["capture.bin", "guest.registers", "grants"] {
        let kept = Kept::of(&bench.path(input));
        std::os::unix::fs::symlink(bench.path(input), bench.path("link")).expect("a link");
        std::fs::hard_link(bench.path(input), bench.path("hard")).expect("a hard link");
        for target in [input, "link", "hard", &format!("./{input}")] {
            bench.over(&format!("map --grants grants --svg {target}")).ends(64).prints("").warns(&["is the input", input]);
            kept.check();
        }
        std::fs::remove_file(bench.path("link")).expect("the link");
        std::fs::remove_file(bench.path("hard")).expect("the hard link");
    }
    assert_eq!(bench.names(), ["capture.bin", "grants", "guest.registers"]);
}

#[test]
fn grants_of_each_guest() {
    let bench = Bench::sample();
    let said = "humpelkaas: give --grants once for each --registers, in the same order\n";
    both(&bench, "--grants plate.grants").ends(64).prints("").says(said);
    both(&bench, &format!("{GRANTS} --grants plate.grants")).ends(64).prints("").says(said);
    // In the other order they are those of the other guest.
    both(&bench, "--grants spectra.grants --grants plate.grants")
        .ends(1)
        .shows(&["! 0x90000-0x90fff: plate reaches this beyond its grants\n"]);
}

/// Lists that an audit refuses are no grants for a map either.
#[test]
fn malformed_grants() {
    let bench = Bench::cases();
    for grants in
        ["0x90000 0\n", "0x0 0\n", "0x90001 0x1000\n", "0x90000 0xfff\n", "0x90000 0x1000\n0x80000 0x1000\n", "0xfffffffffffff000 0x2000\n"]
    {
        bench.write("grants", grants);
        let ran = bench.over("map --grants grants --svg picture.svg").ends(2).prints("");
        ran.warns(&["refused 15", "What to do: "]);
        assert_eq!(bench.names(), ["capture.bin", "grants", "guest.registers"]);
    }
}

/// Two guests whose files of registers have the same name are told apart.
#[test]
fn guests_of_one_name() {
    let bench = two_guests(&[(0x4001_0030, 0x9_07ff)]);
    for guest in ["plate", "spectra"] {
        std::fs::create_dir(bench.path(guest)).expect("a folder");
        bench.write(&format!("{guest}/registers.txt"), bench.bytes(&format!("{guest}.registers")));
    }
    let words = "map --capture capture.bin --base 0x40000000 --registers plate/registers.txt --registers spectra/registers.txt";
    let ran = bench.run(words).ends(1);
    assert!(!ran.stdout.contains("registers and registers both"), "{}", ran.stdout);
}
