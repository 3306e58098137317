//! Reading, not in the gate: `cargo bench --bench reading -- pain.001.001.09.xsd [PAYMENTS..]` in this folder (with the flags of source.sh, which cargo is
//! given again).
//!
//! The bindings of the schema are made and built, and a message of 1 MB, or one for each number of payments, is read by them: against the events of
//! quick-xml alone, and by xsdata where that is installed (PYTHON names the interpreter that has it); processor time, medians.

use std::error::Error;
use std::fmt::Write;
use std::fs;
use std::path::{Path, PathBuf};
use std::process::Command;

const PAYMENTS: usize = 2_000;

const PAYMENT: &str = "<CdtTrfTxInf><PmtId><InstrId>I-NUMBER</InstrId><EndToEndId>E2E-NUMBER</EndToEndId></PmtId>\
    <Amt><InstdAmt Ccy=\"EUR\">NUMBER.50</InstdAmt></Amt><ChrgBr>SLEV</ChrgBr><CdtrAgt><FinInstnId><BICFI>COBADEFFXXX</BICFI></FinInstnId></CdtrAgt>\
    <Cdtr><Nm>Creditor &amp; Sons NUMBER</Nm><PstlAdr><StrtNm>Main Street</StrtNm><TwnNm>Frankfurt</TwnNm><Ctry>DE</Ctry></PstlAdr></Cdtr>\
    <CdtrAcct><Id><IBAN>DE89370400440532013000</IBAN></Id></CdtrAcct><RmtInf><Ustrd>Invoice NUMBER of this month</Ustrd></RmtInf></CdtTrfTxInf>\n";

const BEFORE: &str = "<Document xmlns=\"urn:iso:std:iso:20022:tech:xsd:pain.001.001.09\"><CstmrCdtTrfInitn><GrpHdr><MsgId>M1</MsgId>\
    <CreDtTm>2024-01-01T00:00:00</CreDtTm><NbOfTxs>2000</NbOfTxs><InitgPty><Nm>X</Nm></InitgPty></GrpHdr><PmtInf><PmtInfId>P</PmtInfId><PmtMtd>TRF</PmtMtd>\
    <ReqdExctnDt><Dt>2024-01-02</Dt></ReqdExctnDt><Dbtr><Nm>D</Nm></Dbtr><DbtrAcct><Id><IBAN>DE89370400440532013000</IBAN></Id></DbtrAcct>\
    <DbtrAgt><FinInstnId><BICFI>COBADEFFXXX</BICFI></FinInstnId></DbtrAgt>\n";

const BEHIND: &str = "</PmtInf></CstmrCdtTrfInitn></Document>";

fn main() -> Result<(), Box<dyn Error>> {
    let arguments = std::env::args().skip(1);
    let mut arguments = arguments.filter(|argument| !argument.starts_with("--"));
    let named = arguments.next();
    let Some(file) = named.filter(|file| file.contains("pain.001.001.09")) else {
        println!("name the file pain.001.001.09.xsd");
        return Ok(());
    };
    let mut counts = Vec::new();
    for count in arguments {
        counts.push(count.parse()?);
    }
    if counts.is_empty() {
        counts.push(PAYMENTS);
    }
    let folder = std::env::temp_dir().join(format!("lubiksan-reading-{}", std::process::id()));
    let done = measured(&file, &folder, &counts);
    fs::remove_dir_all(&folder)?;
    done
}

fn measured(file: &str, folder: &Path, counts: &[usize]) -> Result<(), Box<dyn Error>> {
    let made = folder.join("messages");
    let program = env!("CARGO_BIN_EXE_lubiksan");
    Command::new(program)
        .args(["bindings", file, "--lossy", "--quiet", "--output"])
        .arg(&made)
        .status()?;
    fs::create_dir_all(made.join("src/bin"))?;
    let source = include_str!("../tests/data/bindings/reading.rs");
    let source = source
        .replace("MODULE", "pain_001_001_09")
        .replace("::ROOT::", "::Document::");
    fs::write(made.join("src/bin/reading.rs"), source)?;
    let message = folder.join("message.xml");
    for &count in counts {
        fs::write(&message, text(count))?;
        by_bindings(folder, &made, &message)?;
        by_xsdata(&fs::canonicalize(file)?, folder, &message)?;
    }
    Ok(())
}

fn by_bindings(folder: &Path, made: &Path, message: &Path) -> Result<(), Box<dyn Error>> {
    let mut cargo = Command::new("cargo");
    cargo
        .args(["run", "--quiet", "--release"])
        .args(sources())
        .arg("--")
        .arg(message);
    cargo
        .current_dir(made)
        .env("CARGO_TARGET_DIR", folder.join("target"))
        .status()?;
    Ok(())
}

/// The classes that xsdata makes of the schema read the message.
fn by_xsdata(schema: &Path, folder: &Path, message: &Path) -> Result<(), Box<dyn Error>> {
    let mut xsdata = Command::new("xsdata");
    xsdata
        .args(["generate", "--package", "made"])
        .arg(schema)
        .current_dir(folder);
    if !xsdata.output().is_ok_and(|output| output.status.success()) {
        println!("xsdata is not installed with its generator");
        return Ok(());
    }
    let script = Path::new(env!("CARGO_MANIFEST_DIR")).join("tests/data/bindings/reading.py");
    let python = std::env::var_os("PYTHON").unwrap_or_else(|| "python3".into());
    Command::new(python)
        .arg(script)
        .args([folder, message])
        .status()?;
    Ok(())
}

/// A message with so many payments.
fn text(payments: usize) -> String {
    let mut text = BEFORE.to_owned();
    for number in 1..=payments {
        let _ = write!(text, "{}", PAYMENT.replace("NUMBER", &number.to_string()));
    }
    text + BEHIND
}

/// The crates at hand in the place of the registry.
fn sources() -> Vec<String> {
    let beside = Path::new(env!("CARGO_MANIFEST_DIR")).join("../../shared/vendor");
    let vendor = std::env::var_os("LUBIKSAN_VENDOR").map_or(beside, PathBuf::from);
    let Ok(vendor) = fs::canonicalize(vendor) else {
        return Vec::new();
    };
    let vendored = format!("source.vendored.directory={vendor:?}");
    let replaced = "source.crates-io.replace-with=\"vendored\"".to_owned();
    [
        "--offline".to_owned(),
        "--config".to_owned(),
        replaced,
        "--config".to_owned(),
        vendored,
    ]
    .into()
}
