//! The light of order 7: how many finished simple types lowering would refuse, while a sheet is read; sheets that were stored before are
//! converted as they are loaded.

mod common;

use std::path::Path;

use common::{lubiksan, Folder};
use lubiksan::SchemaSheet;
use lubiksan_tool::stored;

/// Two simple types whose base is none of the 38, a code enum with such a base, and one that is fine.
const RED: &str = "<schema>
<simpleType name='Fine'><restriction base='xs:string'/></simpleType>
<simpleType name='Foo'><restriction base='Bar'/></simpleType>
<simpleType name='Code'><restriction base='Bar'><enumeration value='A'/></restriction></simpleType>
<simpleType name='Foo2'><list/></simpleType>
</schema>";

fn text(path: &Path) -> String {
    path.display().to_string()
}

#[test]
fn read_and_check_show_how_many_and_the_first() {
    let folder = Folder::new();
    let (file, sheet) = (folder.put("a.xsd", RED), folder.path("a.sheet"));
    let read = |events: &str| {
        let args = [
            "read",
            &text(&file),
            "--sheet",
            &text(&sheet),
            "--events",
            events,
        ];
        lubiksan(args)
    };
    // The open type does not count: its close is event 6.
    assert_eq!(
        read("6").out,
        format!("{}: 6 of 16 events\n", sheet.display())
    );
    let first = format!("(first: \"Foo\" at {}:3)", file.display());
    assert_eq!(
        read("1").out,
        format!(
            "{}: 7 of 16 events, 1 simple type that lowering would refuse {first}\n",
            sheet.display()
        )
    );
    let line = format!(
        "{}: 16 of 16 events, 2 simple types that lowering would refuse {first}\n",
        sheet.display()
    );
    assert_eq!(read("100").out, line);
    let checked = lubiksan(["check", &text(&sheet)]).out;
    assert!(checked.starts_with(&format!("{}: good\n", sheet.display())));
    let done = format!(", 2 simple types that lowering would refuse {first}\n");
    assert!(checked.contains(&done), "{checked}");
}

#[test]
fn a_shelf_ends_with_how_many_there_are() {
    let folder = Folder::new();
    let (red, green) = (folder.put("a.xsd", RED), folder.put("b.xsd", "<schema/>"));
    let shelf = folder.path("shelf");
    let ran = lubiksan(["shelf", &text(&shelf), &text(&red), &text(&green)]);
    let line = ran.out.lines().next().unwrap_or_default();
    assert!(
        line.ends_with("(refused with 13), 2 simple types that lowering would refuse"),
        "{line}"
    );
    let told = "2 simple types that lowering would refuse: of 1 of 2 files\n";
    assert!(ran.err.starts_with(told), "{}", ran.err);
}

#[test]
fn a_sheet_stored_before_is_old_and_not_altered() {
    let folder = Folder::new();
    let (file, sheet) = (folder.put("a.xsd", RED), folder.path("a.sheet"));
    let reads = ["read", &text(&file), "--sheet", &text(&sheet)].map(str::to_owned);
    assert_eq!(lubiksan(&reads).status, Some(0));
    let now = stored::load(&sheet).expect("it was just stored");
    assert!(!now.converted);

    // As it was stored before: 0 for the count.
    let mut rows = now.sheet.rows().to_vec();
    assert_eq!(rows[17], 2);
    rows[17] = 0;
    let before = SchemaSheet::from_buffers(rows.clone(), now.sheet.names().to_vec());
    stored::store(&sheet, &before, &now.about).expect("it is stored");
    let checked = lubiksan(["check", &text(&sheet)]);
    assert_eq!(checked.status, Some(0), "{}", checked.err);
    let first = format!(
        "{}: good, and old: it was stored before there was a count of refused types\n",
        sheet.display()
    );
    assert!(checked.out.starts_with(&first), "{}", checked.out);

    // The next write stores it with the count.
    assert_eq!(
        lubiksan([&reads[..], &["--events".into(), "0".into()]].concat()).status,
        Some(0)
    );
    let again = stored::load(&sheet).expect("it is good");
    assert!(!again.converted && again.sheet.rows() == now.sheet.rows());

    // Any other count is refused.
    rows[17] = 1;
    let wrong = SchemaSheet::from_buffers(rows, now.sheet.names().to_vec());
    stored::store(&sheet, &wrong, &now.about).expect("it is stored");
    assert_eq!(lubiksan(["check", &text(&sheet)]).status, Some(1));
}
