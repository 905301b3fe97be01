//! A whole antt module around the rows: the definitions that are unfolded, and statements of a few rows each, since the checker
//! bounds the steps of one declaration.

pub struct Kind {
    /// What the module's first line says.
    pub what: &'static str,
    /// The row's type, its constructors, and the test.
    pub row: &'static str,
    pub constructors: &'static [&'static str],
    pub judge: &'static str,
    /// Which definitions the test computes with: module, and names.
    pub unfolds: &'static [(&'static str, &'static str)],
    /// How many rows a statement has.
    pub chunk: usize,
}

const READ_FORMULA: &str = "_then_ entry read-byte read-two read-parts read-formula";

pub const FORMULAS: Kind = Kind {
    what: "formula.rs: `negate`, `desugar`, `is_positive`, `pretty`, `pretty_ascii`",
    row: "FormulaRow",
    constructors: &["formula-row"],
    judge: "judge-formula",
    unfolds: &[
        ("logic.specs.Formula", "negate desugar is-positive"),
        ("logic.specs.Text", "printed digits-within"),
        ("wire.specs.Write", "write-formula"),
        ("wire.specs.Read", READ_FORMULA),
        ("wire.specs.Read", "at-end read-one"),
        ("judged·specs.specs.Judge", "same-bytes all judge-formula"),
    ],
    chunk: 25,
};

pub const TREES: Kind = Kind {
    what: "proof.rs and verify.rs: `depth`, `verify_proof`",
    row: "TreeRow",
    constructors: &["tree-row"],
    judge: "judge-tree",
    unfolds: &[
        ("logic.specs.Formula", "negate same among"),
        ("logic.specs.Tree", "depth nodes premise-count"),
        ("logic.specs.Parts", "left-part right-part is-literal"),
        ("logic.specs.Verify", "any axiom-shaped one-shaped shape-fault verify-from verify"),
        ("wire.specs.Write", "write-formula write-formulas write-zone message write-rule write-node write-tree"),
        ("wire.specs.Read", READ_FORMULA),
        ("wire.specs.Read", "read-formulas read-bytes zone-bytes at-end read-message"),
        ("wire.specs.Read", "read-argument read-zone read-sequent read-premises read-node read-tree"),
        ("judged·specs.specs.Judge", "same-bytes all judge-tree"),
    ],
    chunk: 25,
};

pub const SESSIONS: Kind = Kind {
    what: "search.rs: sessions of questions that share a prover, with the cache on and off",
    row: "SessionRow",
    constructors: &["Asked", "asked", "session"],
    judge: "judge-session",
    unfolds: &[
        ("logic.specs.Formula", "negate is-positive same among"),
        ("logic.specs.Sequent", "to-one-sided"),
        ("logic.specs.Tree", "premise-count"),
        ("logic.specs.Split", "left-of right-of"),
        ("logic.specs.Zone", "total"),
        ("logic.specs.Key", "sequent-key without same-bag contains"),
        ("logic.specs.Held", "enter enter-all enter-question"),
        ("logic.specs.Limits", "exceeds"),
        ("logic.specs.Outcome", "if_then_else_ _or-else_ _if-found_ visited hit record-failure made"),
        ("logic.specs.Search", "from-one from-two tensor-masks prove-focused try-axiom each"),
        ("logic.specs.Search", "try-dereliction try-contraction try-weakening prove-sync async-from"),
        ("logic.specs.Search", "unless-empty prove-async entered remembered lollis visit prove-with-depth ask"),
        ("wire.specs.Write", "write-formula write-formulas write-zone message write-rule write-node write-tree"),
        ("wire.specs.Read", READ_FORMULA),
        ("wire.specs.Read", "read-formulas read-bytes zone-bytes at-end read-message read-question"),
        ("judged·specs.specs.Judge", "same-bytes all recorded judge-asked judge-session"),
    ],
    chunk: 15,
};

pub fn print(kind: &Kind, rows: &[String]) -> String {
    let mut out = header(kind);
    for (number, rows) in rows.chunks(kind.chunk).enumerate() {
        out += &statement(kind, number, rows);
    }
    out
}

fn header(kind: &Kind) -> String {
    let mut out = format!(
        "-- The definitions judged by the Rust: {}. A sample of the stored list, printed by the oracle's `sample`.\n-- Assumes nothing.\n",
        kind.what
    );
    out += "use mathlib.Core.Path.{_≡_, refl}\nuse mathlib.Core.Bool.{true, false}\nuse mathlib.Core.List.{List, [], _∷_}\n";
    for (module, names) in kind.unfolds {
        out += &format!("use Rattle·{module}.{{{}}}\n", names.replace(' ', ", "));
    }
    out += &format!("use Rattle·judged·specs.specs.Judge.{{{}, {}}}\n", kind.row, kind.constructors.join(", "));
    out
}

fn statement(kind: &Kind, number: usize, rows: &[String]) -> String {
    let names: Vec<&str> = kind.unfolds.iter().map(|(_, names)| *names).collect();
    let rows: String = rows.iter().map(|row| format!("{row}\n    ∷ ")).collect();
    format!(
        "\npub rows-{number} : List {}\nrows-{number} =\n    {rows}[]\n\npub judged-{number} : all {} rows-{number} ≡ true\nunfolding rows-{number} {}\njudged-{number} = refl\n",
        kind.row,
        kind.judge,
        names.join(" ")
    )
}
