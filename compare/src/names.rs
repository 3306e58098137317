//! Names of the field and changed forms of names.

/// The built-in type names that lower.rs knows, in its order.
pub const BUILTIN_NAMES: [&str; 38] = [
    "string",
    "normalizedString",
    "token",
    "ID",
    "IDREF",
    "NMTOKEN",
    "anyURI",
    "language",
    "Name",
    "NCName",
    "base64Binary",
    "hexBinary",
    "time",
    "gYear",
    "gYearMonth",
    "gMonth",
    "gMonthDay",
    "gDay",
    "duration",
    "boolean",
    "decimal",
    "integer",
    "int",
    "long",
    "short",
    "byte",
    "nonNegativeInteger",
    "positiveInteger",
    "unsignedInt",
    "unsignedLong",
    "unsignedShort",
    "unsignedByte",
    "nonPositiveInteger",
    "negativeInteger",
    "float",
    "double",
    "date",
    "dateTime",
];

/// Built-in names of XML Schema that lower.rs does not know.
pub const OTHER_BUILTIN_NAMES: [&str; 9] = [
    "QName",
    "NOTATION",
    "IDREFS",
    "ENTITY",
    "ENTITIES",
    "NMTOKENS",
    "anyType",
    "anySimpleType",
    "anyAtomicType",
];

/// Names and codes of ISO 20022 messages, parted by white space.
pub const ISO_NAMES: &str = "
    Document AppHdr Fr To BizMsgIdr MsgDefIdr BizSvc MktPrctc CreDt CpyDplct PssblDplct Prty Sgntr Rltd
    FIToFICstmrCdtTrf FIToFIPmtStsRpt FIToFICstmrDrctDbt FICdtTrf PmtRtr CstmrCdtTrfInitn
    CstmrPmtStsRpt CstmrDrctDbtInitn BkToCstmrStmt BkToCstmrAcctRpt BkToCstmrDbtCdtNtfctn
    GrpHdr MsgId CreDtTm NbOfTxs CtrlSum InitgPty FwdgAgt PmtInf PmtInfId PmtMtd BtchBookg PmtTpInf
    InstrPrty SvcLvl LclInstrm CtgyPurp ReqdExctnDt PoolgAdjstmntDt Dbtr DbtrAcct DbtrAgt UltmtDbtr
    ChrgBr CdtTrfTxInf DrctDbtTxInf PmtId InstrId EndToEndId TxId UETR ClrSysRef Amt InstdAmt EqvtAmt
    XchgRateInf XchgRate IntrBkSttlmAmt IntrBkSttlmDt SttlmInf SttlmMtd ClrSys AccptncDtTm
    PrvsInstgAgt1 IntrmyAgt1 IntrmyAgt1Acct InstgAgt InstdAgt CdtrAgt Cdtr CdtrAcct UltmtCdtr
    RgltryRptg RmtInf Ustrd Strd RfrdDocInf RfrdDocAmt IBAN Othr BIC BICOrBEI BICFI AnyBIC LEI Tp Ccy
    Nm PstlAdr AdrTp StrtNm BldgNb PstCd TwnNm CtrySubDvsn Ctry AdrLine CtryOfRes Id OrgId PrvtId
    DtAndPlcOfBirth SchmeNm Cd Prtry Issr CtctDtls NmPrfx PhneNb MobNb FaxNb EmailAdr URLAdr
    MndtRltdInf MndtId DtOfSgntr AmdmntInd OrgnlMndtId CdtrSchmeId FinInstnId ClrSysMmbId MmbId
    Bal TtlNtries Ntry NtryRef CdtDbtInd RvslInd BookgDt ValDt AcctSvcrRef BkTxCd Domn Fmly SubFmlyCd
    NtryDtls TxDtls Refs RltdPties AddtlNtryInf SplmtryData Envlp PlcAndNm FIId Dt2Nm
    ActiveCurrencyAndAmount_SimpleType ActiveOrHistoricCurrencyAndAmount_SimpleType
    ImpliedCurrencyAndAmount ActiveCurrencyCode CountryCode DecimalNumber Max35Text Max140Text
    Max15NumericText Exact4AlphaNumericText ISODate ISODateTime BICFIDec2014Identifier
    AnyBICDec2014Identifier IBAN2007Identifier LEIIdentifier UUIDv4Identifier
    ExternalServiceLevel1Code AddressType2Code BusinessApplicationHeaderV04 GroupHeader93
    SupplementaryDataEnvelope1 TrueFalseIndicator BatchBookingIndicator PercentageRate
    ADDR PBOX HOME BIZZ MLTO DLVY CODU COPY DUPL HIGH NORM DEBT CRED SHAR SLEV TRF CHK TRA CLRG COVE
    INDA INGA SEPA CORE B2B OOFF FRST RCUR FNAL ACCP ACTC RJCT PDNG TEST-VALUE
";

/// The prefixes that are put before a name, each with its colon.
const PREFIXES: [&str; 6] = ["xs:", "xsd:", ":", "a:b:", "xs::", "_-:"];

/// `name` behind each prefix.
pub fn prefixed(name: &str) -> Vec<String> {
    PREFIXES.iter().map(|p| format!("{p}{name}")).collect()
}

/// `name` in the wrong case, with one letter more, and with one less.
pub fn near_misses(name: &str) -> Vec<String> {
    vec![
        first_case_changed(name),
        name.to_ascii_uppercase(),
        name.to_ascii_lowercase(),
        format!("{name}s"),
        format!("x{name}"),
        name[1..].to_owned(),
        name[..name.len() - 1].to_owned(),
        format!("{name}:"),
    ]
}

/// `name` with every change of one place: a byte taken out, changed, put in or exchanged with the
/// next one, its case changed, and the name ended there.
pub fn changes_of_one_place(name: &str) -> Vec<String> {
    (0..=name.len())
        .flat_map(|place| changes_at(name, place))
        .collect()
}

const PUT_IN: &[u8] = b"aAzZ_-:09 \0\x7f";

fn changes_at(name: &str, place: usize) -> Vec<String> {
    let (before, after) = name.split_at(place);
    let mut changed = vec![before.to_owned(), after.to_owned()];
    changed.extend(
        PUT_IN
            .iter()
            .map(|&b| format!("{before}{}{after}", char::from(b))),
    );
    if !after.is_empty() {
        changed.extend(changes_of_byte(before, after));
    }
    changed
}

fn changes_of_byte(before: &str, after: &str) -> Vec<String> {
    let (first, rest) = after.split_at(1);
    let mut changed = vec![
        format!("{before}{rest}"),
        format!("{before}{}", first_case_changed(after)),
        format!("{before}{}", with_next_exchanged(first, rest)),
    ];
    changed.extend(
        PUT_IN
            .iter()
            .map(|&b| format!("{before}{}{rest}", char::from(b))),
    );
    changed.extend(neighbour_bytes(first).map(|b| format!("{before}{}{rest}", char::from(b))));
    changed
}

fn with_next_exchanged(first: &str, rest: &str) -> String {
    let (second, rest) = rest.split_at(rest.len().min(1));
    format!("{second}{first}{rest}")
}

fn neighbour_bytes(letter: &str) -> impl Iterator<Item = u8> {
    let byte = letter.as_bytes()[0];
    [byte - 1, byte + 1].into_iter()
}

/// `name` with the case of its first letter changed.
pub fn first_case_changed(name: &str) -> String {
    let mut bytes = name.as_bytes().to_vec();
    if let Some(first) = bytes.first_mut() {
        if first.is_ascii_alphabetic() {
            *first ^= 0x20;
        }
    }
    String::from_utf8(bytes).expect("an ASCII name stays ASCII")
}
