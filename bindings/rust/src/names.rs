//! The names in a specification that a store has accepted.

/// The names of the columns, and of each query those of its outputs.
#[derive(Debug)]
pub(crate) struct Names {
    /// In the order of the specification.
    pub(crate) columns: Vec<String>,
    queries: Vec<(String, Vec<String>)>,
}

impl Names {
    /// Those of an accepted specification's text: each of its lines has one of the language's forms.
    pub(crate) fn of(text: &str) -> Names {
        let mut names = Names {
            columns: Vec::new(),
            queries: Vec::new(),
        };
        for line in text.lines() {
            let mut words = line.split_ascii_whitespace();
            match (words.next(), words.next(), words.next()) {
                (Some("col"), Some(name), _) => names.columns.push(name.into()),
                (Some("op"), Some(name), Some("query")) => {
                    let outputs = words.skip_while(|word| *word != "->").skip(1);
                    let outputs = outputs.map(str::to_owned).collect();
                    names.queries.push((name.into(), outputs));
                }
                _ => {}
            }
        }
        names
    }

    /// The outputs of the query with this name, none of another operation.
    pub(crate) fn outputs(&self, name: &str) -> &[String] {
        let query = self.queries.iter().find(|query| query.0 == name);
        query.map_or(&[], |query| &query.1)
    }
}
