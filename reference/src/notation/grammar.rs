//! The grammar of the typed notation, as docs/NOTATION.md has it, and the same grammar over single
//! bytes: repetitions and what may be left out have rules of their own, and blanks follow tokens.

/// Section 2 of docs/NOTATION.md, word for word.
pub const GRAMMAR: &str = r#"
    chart       = single | part "|" set "|" part
    part        = single | "(" part "|" set "|" part ")"
    single      = sequential
                | "Dec" sequential "by" "{" slave { "," slave } "}"
                | [ set ] "[" chart "]" [ set ]
    slave       = "(" state "," chart ")"
    sequential  = "(" name "," "{" state { "," state } "}" "," state "," set
                  "," "{" [ transition { "," transition } ] "}" [ "," set ] ")"
    transition  = "(" state "," state "," [ literal { "&" literal } ] "/" set ")"
    literal     = [ "-" ] signal
    set         = "{" [ signal { "," signal } ] "}"
    name        = "c" number        state = "q" number        signal = "s" number
    number      = "0" | a digit 1 to 9 { a digit 0 to 9 }
"#;

/// The bytes that are skipped between tokens: space and line ends.
pub const BLANKS: [u8; 3] = [32, 10, 13];

/// What a rule of the grammar describes.
#[derive(Clone, Copy, PartialEq, Eq, Debug)]
pub enum Kind {
    Chart,
    Part,
    Single,
    Slave,
    Sequential,
    Transition,
    Literal,
    Set,
    Name,
    State,
    Signal,
    Number,
}

impl Kind {
    /// The kind of a rule's word.
    fn of(word: &str) -> Option<Kind> {
        Some(match word {
            "chart" => Kind::Chart,
            "part" => Kind::Part,
            "single" => Kind::Single,
            "slave" => Kind::Slave,
            "sequential" => Kind::Sequential,
            "transition" => Kind::Transition,
            "literal" => Kind::Literal,
            "set" => Kind::Set,
            "name" => Kind::Name,
            "state" => Kind::State,
            "signal" => Kind::Signal,
            "number" => Kind::Number,
            _ => return None,
        })
    }

    /// Whether it is a token or a piece of one, in which no blank can be.
    fn is_in_token(self) -> bool {
        matches!(self, Kind::Name | Kind::State | Kind::Signal | Kind::Number)
    }
}

/// A symbol of a production: a byte, or what one of the productions with this number makes.
#[derive(Clone, Copy, PartialEq, Eq, PartialOrd, Ord, Debug)]
pub enum Symbol {
    Byte(u8),
    Made(usize),
}

/// A production: what it makes, and of which symbols.
#[derive(Clone, Debug)]
pub struct Production {
    pub makes: usize,
    pub of: Vec<Symbol>,
}

/// Productions over bytes. What is made has a number; those that a rule of the notation describes
/// have its kind. Production 0 makes a whole text.
#[derive(Clone, Debug)]
pub struct Grammar {
    pub kinds: Vec<Option<Kind>>,
    pub productions: Vec<Production>,
}

/// A piece of a rule.
enum Piece<'a> {
    Token(&'a str),
    Named(Kind),
    /// One of the bytes from one to another.
    Range(u8, u8),
    Optional(Ways<'a>),
    Repeated(Ways<'a>),
}

/// The ways that a rule gives, each a row of pieces.
type Ways<'a> = Vec<Vec<Piece<'a>>>;

/// The productions of [`GRAMMAR`].
pub fn grammar() -> Grammar {
    let words: Vec<&str> = GRAMMAR.split_whitespace().collect();
    let begins = |&at: &usize| words.get(at + 1) == Some(&"=");
    let mut starts: Vec<usize> = (0..words.len()).filter(begins).collect();
    starts.push(words.len());
    let mut made = Build::new();
    for rule in starts.windows(2) {
        let kind = Kind::of(words[rule[0]]).expect("a rule has a kind");
        let mut rest = &words[rule[0] + 2..rule[1]];
        let ways = ways(&mut rest);
        assert!(rest.is_empty(), "brackets of a rule are closed");
        let number = made.number_of(kind);
        made.describe(number, &ways, !kind.is_in_token());
    }
    made.grammar
}

/// The ways up to a closing bracket or the end, taken off the words.
fn ways<'a>(words: &mut &[&'a str]) -> Ways<'a> {
    let mut ways = vec![vec![]];
    while let [word, rest @ ..] = *words {
        *words = rest;
        let piece = match *word {
            "]" | "}" => return ways,
            "|" => {
                ways.push(vec![]);
                continue;
            }
            "[" => Piece::Optional(self::ways(words)),
            "{" => Piece::Repeated(self::ways(words)),
            "a" => digits(words),
            quoted if quoted.starts_with('"') => Piece::Token(quoted.trim_matches('"')),
            named => Piece::Named(Kind::of(named).expect("a name is that of a rule")),
        };
        ways.last_mut().expect("there is a first way").push(piece);
    }
    ways
}

/// `a digit 0 to 9`, behind the `a`.
fn digits<'a>(words: &mut &[&'a str]) -> Piece<'a> {
    let ["digit", low, "to", high, rest @ ..] = *words else {
        panic!("a range of digits");
    };
    *words = rest;
    Piece::Range(low.as_bytes()[0], high.as_bytes()[0])
}

/// The productions while they are made.
struct Build {
    grammar: Grammar,
    blanks: usize,
}

impl Build {
    /// The production of a text, blanks and then a chart, and those of blanks.
    fn new() -> Build {
        let grammar = Grammar {
            kinds: vec![],
            productions: vec![],
        };
        let mut made = Build { grammar, blanks: 0 };
        let text = made.new_number(None);
        made.blanks = made.new_number(None);
        let (blanks, chart) = (made.blanks, made.number_of(Kind::Chart));
        made.push(text, vec![Symbol::Made(blanks), Symbol::Made(chart)]);
        made.push(blanks, vec![]);
        for blank in BLANKS {
            made.push(blanks, vec![Symbol::Made(blanks), Symbol::Byte(blank)]);
        }
        made
    }

    fn new_number(&mut self, kind: Option<Kind>) -> usize {
        self.grammar.kinds.push(kind);
        self.grammar.kinds.len() - 1
    }

    fn number_of(&mut self, kind: Kind) -> usize {
        let known = self.grammar.kinds.iter().position(|&k| k == Some(kind));
        known.unwrap_or_else(|| self.new_number(Some(kind)))
    }

    fn push(&mut self, makes: usize, of: Vec<Symbol>) {
        self.grammar.productions.push(Production { makes, of });
    }

    /// A production for each way; blanks can follow its tokens if it is not in a token itself.
    fn describe(&mut self, makes: usize, ways: &Ways, blanks: bool) {
        for way in ways {
            let of = self.symbols(way, blanks);
            self.push(makes, of);
        }
    }

    fn symbols(&mut self, way: &[Piece], blanks: bool) -> Vec<Symbol> {
        let mut of = vec![];
        for piece in way {
            let ends_token = match piece {
                Piece::Token(bytes) => {
                    of.extend(bytes.bytes().map(Symbol::Byte));
                    true
                }
                Piece::Named(kind) => {
                    of.push(Symbol::Made(self.number_of(*kind)));
                    kind.is_in_token()
                }
                Piece::Range(low, high) => {
                    of.push(Symbol::Made(self.one_of(*low, *high)));
                    false
                }
                Piece::Optional(ways) => {
                    of.push(Symbol::Made(self.optional(ways, blanks)));
                    false
                }
                Piece::Repeated(ways) => {
                    of.push(Symbol::Made(self.repeated(ways, blanks)));
                    false
                }
            };
            if ends_token && blanks {
                of.push(Symbol::Made(self.blanks));
            }
        }
        of
    }

    fn one_of(&mut self, low: u8, high: u8) -> usize {
        let number = self.new_number(None);
        for byte in low..=high {
            self.push(number, vec![Symbol::Byte(byte)]);
        }
        number
    }

    fn optional(&mut self, ways: &Ways, blanks: bool) -> usize {
        let number = self.new_number(None);
        self.push(number, vec![]);
        self.describe(number, ways, blanks);
        number
    }

    /// Nothing, or what there is so far and one more.
    fn repeated(&mut self, ways: &Ways, blanks: bool) -> usize {
        let number = self.new_number(None);
        self.push(number, vec![]);
        for way in ways {
            let mut of = vec![Symbol::Made(number)];
            of.extend(self.symbols(way, blanks));
            self.push(number, of);
        }
        number
    }
}
