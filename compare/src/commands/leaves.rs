//! Compares the text leaves of the static library `lubiksan` with the Rust.

use std::process::ExitCode;

use compare::builtins;
use compare::cases;
use compare::checks;
use compare::schemas;
use compare::tally::Tally;

/// All of them.
pub fn run() -> ExitCode {
    let mut groups = Groups::new();
    groups.take("short texts", cases::short_texts());
    groups.take("number texts", cases::numbers());
    groups.take("built-in names", cases::builtin_names());
    groups.sources.push(builtins::compared());
    groups.take("random texts", cases::random_texts());
    groups.take("short accented texts", cases::accented_texts());
    groups.take("random accented texts", cases::random_accented());
    groups.take_case();
    groups.take_of_graphs();
    take_schemas(&mut groups);
    groups.take_pairs(&cases::short_names());
    groups.take_pairs(&cases::short_accented_names());
    cases::each_spelling(&mut |text| checks::numbers(&mut groups.numbers, text));
    groups.print()
}

fn take_schemas(groups: &mut Groups) {
    let Some(folder) = schemas::folder() else {
        return;
    };
    let texts = cases::schema_texts(&folder).expect("the schemas can be read");
    groups.take("schema texts", texts);
}

/// The groups of cases: the leaves for each source of texts; over all texts the rooms of the
/// conversions, the pairs of names, and the numbers with the model.
struct Groups {
    sources: Vec<Tally>,
    rooms: Tally,
    pairs: Tally,
    numbers: Tally,
}

impl Groups {
    fn new() -> Self {
        Groups {
            sources: Vec::new(),
            rooms: Tally::new("conversions in five rooms"),
            pairs: Tally::new("same_normalized"),
            numbers: Tally::new("numbers with the model of order 2"),
        }
    }

    fn take(&mut self, source: &'static str, texts: Vec<String>) {
        let mut tally = Tally::new(source);
        let mut previous = "";
        for text in &texts {
            checks::leaves(&mut tally, text);
            checks::rooms(&mut self.rooms, text);
            checks::neighbours(&mut self.pairs, previous, text);
            checks::numbers(&mut self.numbers, text);
            previous = text;
        }
        self.sources.push(tally);
    }

    /// The case of every character up to U+017F; `_` and `-`, which stand between parts of names, are no letters.
    fn take_case(&mut self) {
        let mut tally = Tally::new("case of each character up to U+017F");
        let characters = ('\0'..='\u{17F}').filter(|c| !"_-".contains(*c));
        characters.for_each(|c| checks::case_of(&mut tally, c));
        self.sources.push(tally);
    }

    fn take_of_graphs(&mut self) {
        let mut tally = Tally::new("texts of graphs");
        let texts = cases::graph_texts();
        texts
            .iter()
            .for_each(|text| checks::of_graph(&mut tally, text));
        self.sources.push(tally);
    }

    fn take_pairs(&mut self, texts: &[String]) {
        for a in texts {
            for b in texts {
                checks::same_normalized(&mut self.pairs, a, b);
            }
        }
    }

    fn print(self) -> ExitCode {
        let groups: Vec<Tally> = self
            .sources
            .into_iter()
            .chain([self.rooms, self.pairs, self.numbers])
            .collect();
        groups.iter().for_each(|group| println!("{group}"));
        let cases: u64 = groups.iter().map(Tally::cases).sum();
        let differences: u64 = groups.iter().map(Tally::differences).sum();
        println!("compared {cases} cases, {differences} differences");
        ExitCode::from(u8::from(differences > 0))
    }
}
