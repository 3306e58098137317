//! Programs in C over the header and the archive: `examples/graph.c` built and run as C and as C++, and the stack of each
//! call as the header says it; and what the archive asks of whoever links it.

use std::collections::BTreeSet;
use std::error::Error;
use std::fs;
use std::path::{Path, PathBuf};
use std::process::{Command, Output};

use lubiksan_sys::{
    LUBIKSAN_CLEAR_STACK, LUBIKSAN_LOWER_STACK, LUBIKSAN_OTHER_STACK, LUBIKSAN_PATTERN_STACK,
    LUBIKSAN_READ_STACK, LUBIKSAN_REDUCE_STACK, LUBIKSAN_TAPE_STACK, LUBIKSAN_WRITE_STACK,
};

type Tried = Result<(), Box<dyn Error>>;

fn root() -> PathBuf {
    Path::new(env!("CARGO_MANIFEST_DIR")).join("../..")
}

fn schema() -> PathBuf {
    root().join("tool/tests/data/payment.xsd")
}

/// Builds a program by a command, with what must stand before and behind its source.
fn built(name: &str, compiler: &[&str], source: &Path) -> Result<PathBuf, Box<dyn Error>> {
    let folder = Path::new(env!("CARGO_TARGET_TMPDIR"));
    fs::create_dir_all(folder)?;
    let program = folder.join(name);
    let (first, flags) = compiler.split_first().ok_or("a compiler has a name")?;
    let made = Command::new(first)
        .args(flags)
        .args(["-Wall", "-Wextra", "-Werror", "-pedantic"])
        .arg("-I")
        .arg(root().join("crates/lubiksan/include"))
        .arg(source)
        .args(["-x", "none"])
        .arg(env!("LUBIKSAN_ARCHIVE"))
        .args(["-lpthread", "-o"])
        .arg(&program)
        .output()?;
    succeeded(&made)?;
    Ok(program)
}

fn succeeded(output: &Output) -> Tried {
    if output.status.success() {
        return Ok(());
    }
    Err(String::from_utf8_lossy(&output.stderr).into())
}

fn printed(program: &Path, files: &[PathBuf]) -> Result<String, Box<dyn Error>> {
    let output = Command::new(program).args(files).output()?;
    succeeded(&output)?;
    Ok(String::from_utf8(output.stdout)?)
}

/// The types of payment.xsd, by hand from the file.
const PAYMENT: &str = "\
root Document: Payment
newtype AmountSimpleType: Decimal
newtype CurrencyCode: String
newtype Max35Text: String
codes AddressType2Code
    Addr
    Pbox
struct Payment
    msg_id: Max35Text
    cre_dt_tm: DateTime
    amt: CurrencyAndAmount
    cdtr: Party
    adr_line: Max35Text
choice Party
    IBAN: Max35Text
    Cd: AddressType2Code
    Agt: Party
    Any: Envelope
opaque Envelope
value CurrencyAndAmount: AmountSimpleType
    ccy: CurrencyCode
";

#[test]
fn the_example_is_c_and_cpp() -> Tried {
    let source = root().join("examples/graph.c");
    let compilers: [(&str, &[&str]); 2] = [
        ("graph-c", &["cc", "-std=c99", "-x", "c"]),
        ("graph-cpp", &["c++", "-std=c++11", "-x", "c++"]),
    ];
    for (name, compiler) in compilers {
        let program = built(name, compiler, &source)?;
        assert_eq!(printed(&program, &[schema()])?, PAYMENT, "{name}");
        let refused = Command::new(&program).arg(&source).output()?;
        let said = String::from_utf8_lossy(&refused.stderr);
        assert_eq!(said, "the text is refused with 17, place 0\n", "{name}");
        assert_eq!(refused.status.code(), Some(1));
    }
    Ok(())
}

/// A schema of many nested tags, long names and every kind of row.
fn wide() -> String {
    let mut text = String::from("<xs:schema xmlns:xs='urn:x' targetNamespace='urn:y'>");
    for index in 0..300 {
        text += &format!("<xs:simpleType name='S_{index}'><xs:restriction base='xs:string'><xs:maxLength value=' 0{index} '/></xs:restriction></xs:simpleType>");
    }
    let (open, close) = ("<a b='&#x20;c'>".repeat(200), "</a>".repeat(200));
    text + "<xs:annotation>" + &open + &close + "</xs:annotation></xs:schema>"
}

#[test]
fn the_stack_of_each_call_is_as_the_header_says() -> Tried {
    let source = Path::new(env!("CARGO_MANIFEST_DIR")).join("tests/stack.c");
    let flags = ["cc", "-std=gnu99", "-O1", "-x", "c"];
    let program = built("stack", &flags, &source)?;
    let wide_file = Path::new(env!("CARGO_TARGET_TMPDIR")).join("wide.xsd");
    fs::write(&wide_file, wide())?;
    let measured = printed(&program, &[schema(), wide_file])?;
    let told = [
        ("TAPE", LUBIKSAN_TAPE_STACK),
        ("CLEAR", LUBIKSAN_CLEAR_STACK),
        ("READ", LUBIKSAN_READ_STACK),
        ("LOWER", LUBIKSAN_LOWER_STACK),
        ("REDUCE", LUBIKSAN_REDUCE_STACK),
        ("WRITE", LUBIKSAN_WRITE_STACK),
        ("PATTERN", LUBIKSAN_PATTERN_STACK),
        ("OTHER", LUBIKSAN_OTHER_STACK),
    ];
    let mut lines = measured.lines();
    for (name, bytes) in told {
        let line = lines.next().ok_or("a line for each call")?;
        let found: usize = line.strip_prefix(name).ok_or(line)?.trim().parse()?;
        let rounded = found.next_multiple_of(1024);
        assert_eq!(bytes, rounded, "LUBIKSAN_{name}_STACK: {found} bytes");
    }
    Ok(())
}

#[test]
fn the_archive_asks_for_memset_alone() -> Tried {
    let output = Command::new("nm")
        .args(["-u", env!("LUBIKSAN_ARCHIVE")])
        .output()?;
    succeeded(&output)?;
    let said = String::from_utf8(output.stdout)?;
    let asked: BTreeSet<&str> = said
        .lines()
        .filter_map(|line| line.trim().strip_prefix("U "))
        .collect();
    assert_eq!(asked, BTreeSet::from(["memset"]));
    Ok(())
}
