//! Cedar text against Cedar's grammar: a reader of that grammar, for this test alone, finds in the text of a random tree the tree itself.
//!
//! ```text
//! Expr     ::= Or | 'if' Expr 'then' Expr 'else' Expr
//! Or       ::= And {'||' And}
//! And      ::= Relation {'&&' Relation}
//! Relation ::= Add [RELOP Add] | Add 'has' (IDENT {'.' IDENT} | STR) | Add 'like' PAT | Add 'is' Path
//! Add      ::= Mult {('+' | '-') Mult}
//! Mult     ::= Unary {'*' Unary}
//! Unary    ::= {'!'} Member | {'-'} Member, at most four of them
//! Member   ::= Primary {'.' IDENT ['(' [Expr {',' Expr}] ')'] | '[' STR ']'}
//! Primary  ::= LITERAL | VAR | SLOT | Path '::' STR | IDENT '(' ')' | '(' Expr ')' | '[' [Expr {',' Expr}] ']' | '{' [STR ':' Expr {',' STR ':' Expr}] '}'
//! ```

use openrules::cedar::{Expr, Literal, Text};
use openrules::sheet::{Binary, Slot, Unary, Variable};

/// A word or sign; the text of a string is kept as it stands between its quotes.
#[derive(Clone, Debug, PartialEq)]
enum Token {
    Word(String),
    Number(u64),
    Quoted(String),
    Sign(&'static str),
}

const SIGNS: [&str; 24] = [
    "||", "&&", "==", "!=", "<=", ">=", "::", "<", ">", "+", "-", "*", "!", "(", ")", "[", "]", "{", "}", ",", ":", ".", "?", ";",
];

fn tokens(text: &str) -> Vec<Token> {
    let mut tokens = Vec::new();
    let mut rest = text;
    while let Some(first) = rest.chars().next() {
        let length = if first == ' ' {
            1
        } else if first == '"' {
            let mut escaped = false;
            let closing = rest[1..].char_indices().find(|(_, one)| {
                let closes = !escaped && *one == '"';
                escaped = !escaped && *one == '\\';
                closes
            });
            let end = closing.expect("a closing quote").0;
            tokens.push(Token::Quoted(rest[1..1 + end].to_string()));
            end + 2
        } else if first.is_ascii_digit() {
            let end = rest.find(|one: char| !one.is_ascii_digit()).unwrap_or(rest.len());
            tokens.push(Token::Number(rest[..end].parse().expect("a number")));
            end
        } else if first == '_' || first.is_ascii_alphabetic() {
            let end = rest.find(|one: char| one != '_' && !one.is_ascii_alphanumeric()).unwrap_or(rest.len());
            tokens.push(Token::Word(rest[..end].to_string()));
            end
        } else {
            let sign = SIGNS.into_iter().find(|sign| rest.starts_with(sign)).unwrap_or_else(|| panic!("{rest}"));
            tokens.push(Token::Sign(sign));
            sign.len()
        };
        rest = &rest[length..];
    }
    tokens
}

/// The characters of a string or a pattern: `\*` is an asterisk in patterns alone, and a bare one there is a wildcard, None.
fn characters(quoted: &str, pattern: bool) -> Vec<Option<char>> {
    let mut found = Vec::new();
    let mut rest = quoted.chars();
    while let Some(one) = rest.next() {
        found.push(match one {
            '*' if pattern => None,
            '\\' => Some(match rest.next().expect("an escape") {
                'n' => '\n',
                't' => '\t',
                'r' => '\r',
                '0' => '\0',
                '*' if pattern => '*',
                same @ ('\\' | '"' | '\'') => same,
                other => panic!("escape {other}"),
            }),
            '"' => panic!("a bare quote"),
            other => Some(other),
        });
    }
    found
}

fn string(quoted: &str) -> Text {
    let characters: String = characters(quoted, false).into_iter().flatten().collect();
    characters.as_str().into()
}

const RESERVED: [&str; 9] = ["true", "false", "if", "then", "else", "in", "is", "like", "has"];

struct Reader {
    tokens: Vec<Token>,
    place: usize,
}

impl Reader {
    fn peek(&self) -> Option<&Token> {
        self.tokens.get(self.place)
    }

    fn next(&mut self) -> Token {
        self.place += 1;
        self.tokens[self.place - 1].clone()
    }

    fn takes(&mut self, sign: &'static str) -> bool {
        let there = self.peek() == Some(&Token::Sign(sign));
        self.place += usize::from(there);
        there
    }

    fn takes_word(&mut self, word: &str) -> bool {
        let there = matches!(self.peek(), Some(Token::Word(one)) if one == word);
        self.place += usize::from(there);
        there
    }

    fn needs(&mut self, sign: &'static str) {
        assert!(self.takes(sign), "{sign} before {:?}", &self.tokens[self.place..]);
    }

    fn identifier(&mut self) -> String {
        match self.next() {
            Token::Word(word) if !RESERVED.contains(&&*word) => word,
            other => panic!("{other:?} is no identifier"),
        }
    }

    fn expr(&mut self) -> Expr {
        if !self.takes_word("if") {
            return self.or();
        }
        let test = self.expr();
        assert!(self.takes_word("then"));
        let yes = self.expr();
        assert!(self.takes_word("else"));
        Expr::If(test.into(), yes.into(), self.expr().into())
    }

    fn or(&mut self) -> Expr {
        let mut left = self.and();
        while self.takes("||") {
            left = Expr::Binary(Binary::Or, left.into(), self.and().into());
        }
        left
    }

    fn and(&mut self) -> Expr {
        let mut left = self.relation();
        while self.takes("&&") {
            left = Expr::Binary(Binary::And, left.into(), self.relation().into());
        }
        left
    }

    fn relation(&mut self) -> Expr {
        let left = self.add();
        for (sign, word, not) in [
            ("==", Binary::Eq, false),
            ("!=", Binary::Eq, true),
            ("<", Binary::Lt, false),
            (">=", Binary::Lt, true),
            ("<=", Binary::Le, false),
            (">", Binary::Le, true),
        ] {
            if self.takes(sign) {
                let tree = Expr::Binary(word, left.into(), self.add().into());
                return if not { Expr::Unary(Unary::Not, tree.into()) } else { tree };
            }
        }
        if self.takes_word("in") {
            return Expr::Binary(Binary::In, left.into(), self.add().into());
        }
        if self.takes_word("is") {
            let mut path = self.identifier();
            while self.takes("::") {
                path = format!("{path}::{}", self.identifier());
            }
            return Expr::Is(left.into(), path.as_str().into());
        }
        if self.takes_word("like") {
            let Token::Quoted(pattern) = self.next() else { panic!("a pattern") };
            return Expr::Like(left.into(), items(characters(&pattern, true)));
        }
        if self.takes_word("has") {
            if let Some(Token::Quoted(text)) = self.peek().cloned() {
                self.place += 1;
                return Expr::Has(left.into(), string(&text));
            }
            let mut path: Vec<Text> = vec![self.identifier().as_str().into()];
            while self.takes(".") {
                path.push(self.identifier().as_str().into());
            }
            return match path.len() {
                1 => Expr::Has(left.into(), path.remove(0)),
                _ => Expr::HasPath(left.into(), path),
            };
        }
        left
    }

    fn add(&mut self) -> Expr {
        let mut left = self.mult();
        loop {
            let word = if self.takes("+") {
                Binary::Add
            } else if self.takes("-") {
                Binary::Sub
            } else {
                return left;
            };
            left = Expr::Binary(word, left.into(), self.mult().into());
        }
    }

    fn mult(&mut self) -> Expr {
        let mut left = self.unary();
        while self.takes("*") {
            left = Expr::Binary(Binary::Mul, left.into(), self.unary().into());
        }
        left
    }

    fn unary(&mut self) -> Expr {
        let (mut nots, mut dashes) = (0, 0);
        while self.takes("!") {
            nots += 1;
        }
        while nots == 0 && self.takes("-") {
            dashes += 1;
        }
        assert!(nots <= 4 && dashes <= 4);
        // A dash and a number are one literal, where nothing is accessed of it.
        let alone = !matches!(self.tokens.get(self.place + 1), Some(Token::Sign("." | "[")));
        let mut tree = match self.peek() {
            Some(Token::Number(number)) if dashes > 0 && alone => {
                let literal = Expr::Lit(Literal::Long(0i64.checked_sub_unsigned(*number).expect("a long")));
                (self.place, dashes) = (self.place + 1, dashes - 1);
                literal
            }
            _ => self.member(),
        };
        for _ in 0..dashes {
            tree = Expr::Unary(Unary::Neg, tree.into());
        }
        for _ in 0..nots {
            tree = Expr::Unary(Unary::Not, tree.into());
        }
        tree
    }

    fn member(&mut self) -> Expr {
        let mut tree = self.primary();
        loop {
            if self.takes("[") {
                let Token::Quoted(text) = self.next() else { panic!("an attribute in quotes") };
                self.needs("]");
                tree = Expr::Get(tree.into(), string(&text));
            } else if self.takes(".") {
                let name = self.identifier();
                tree = if self.takes("(") { self.method(tree, &name) } else { Expr::Get(tree.into(), name.as_str().into()) };
            } else {
                return tree;
            }
        }
    }

    fn method(&mut self, tree: Expr, name: &str) -> Expr {
        if name == "isEmpty" {
            self.needs(")");
            return Expr::Unary(Unary::Empty, tree.into());
        }
        let word = match name {
            "getTag" => Binary::GetTag,
            "hasTag" => Binary::HasTag,
            "contains" => Binary::Contains,
            "containsAll" => Binary::All,
            "containsAny" => Binary::Any,
            other => panic!("method {other}"),
        };
        let argument = self.expr();
        self.needs(")");
        Expr::Binary(word, tree.into(), argument.into())
    }

    fn primary(&mut self) -> Expr {
        match self.next() {
            Token::Number(number) => Expr::Lit(Literal::Long(number.try_into().expect("a long"))),
            Token::Quoted(text) => Expr::Lit(Literal::String(string(&text))),
            Token::Sign("(") => {
                let tree = self.expr();
                self.needs(")");
                tree
            }
            Token::Sign("[") => {
                let mut elements = Vec::new();
                while !self.takes("]") {
                    assert!(elements.is_empty() || self.takes(","));
                    elements.push(self.expr());
                }
                Expr::Set(elements)
            }
            Token::Sign("{") => {
                let mut fields = Vec::new();
                while !self.takes("}") {
                    assert!(fields.is_empty() || self.takes(","));
                    let Token::Quoted(text) = self.next() else { panic!("a name in quotes") };
                    self.needs(":");
                    fields.push((string(&text), self.expr()));
                }
                Expr::Record(fields)
            }
            Token::Sign("?") => match &*self.identifier() {
                "principal" => Expr::Slot(Slot::Principal),
                "resource" => Expr::Slot(Slot::Resource),
                other => panic!("slot {other}"),
            },
            Token::Word(word) => self.named(word),
            other => panic!("{other:?}"),
        }
    }

    fn named(&mut self, word: String) -> Expr {
        match &*word {
            "true" => return Expr::Lit(Literal::Bool(true)),
            "false" => return Expr::Lit(Literal::Bool(false)),
            _ => assert!(!RESERVED.contains(&&*word), "{word}"),
        }
        if self.takes("(") {
            self.needs(")");
            assert_eq!(word, "error");
            return Expr::Err;
        }
        let mut kind = word;
        while self.takes("::") {
            match self.next() {
                Token::Quoted(id) => return Expr::Lit(Literal::Entity { kind: kind.as_str().into(), id: string(&id) }),
                Token::Word(step) => kind = format!("{kind}::{step}"),
                other => panic!("{other:?}"),
            }
        }
        match &*kind {
            "principal" => Expr::Var(Variable::Principal),
            "action" => Expr::Var(Variable::Action),
            "resource" => Expr::Var(Variable::Resource),
            "context" => Expr::Var(Variable::Context),
            other => panic!("variable {other}"),
        }
    }
}

/// A pattern as its longest texts with wildcards between them.
fn items(characters: Vec<Option<char>>) -> Vec<Option<Text>> {
    let mut items: Vec<Option<String>> = Vec::new();
    for one in characters {
        match (one, items.last_mut()) {
            (None, _) => items.push(None),
            (Some(one), Some(Some(text))) => text.push(one),
            (Some(one), _) => items.push(Some(one.to_string())),
        }
    }
    items.into_iter().map(|item| item.map(|text| text.as_str().into())).collect()
}

fn read(text: &str) -> Expr {
    let mut reader = Reader { tokens: tokens(text), place: 0 };
    let tree = reader.expr();
    assert_eq!(reader.peek(), None, "{text}");
    tree
}

/// The tree that Cedar text can tell: literals of sets and records are trees, texts of a pattern run together, a path of one step is a name.
fn plain(tree: &Expr) -> Expr {
    let boxed = |tree: &Expr| Box::new(plain(tree));
    match tree {
        Expr::Lit(Literal::Set(all)) => Expr::Set(all.iter().map(|one| plain(&Expr::Lit(one.clone()))).collect()),
        Expr::Lit(Literal::Record(all)) => {
            Expr::Record(all.iter().map(|(text, one)| (text.clone(), plain(&Expr::Lit(one.clone())))).collect())
        }
        Expr::Lit(_) | Expr::Err | Expr::Var(_) | Expr::Slot(_) => tree.clone(),
        Expr::Unary(word, a) => Expr::Unary(*word, boxed(a)),
        Expr::Binary(word, a, b) => Expr::Binary(*word, boxed(a), boxed(b)),
        Expr::If(a, b, c) => Expr::If(boxed(a), boxed(b), boxed(c)),
        Expr::Is(a, kind) => Expr::Is(boxed(a), kind.clone()),
        Expr::Like(a, pattern) => {
            let characters = pattern.iter().flat_map(|item| match item {
                Some(text) => text.chars().map(Some).collect(),
                None => vec![None],
            });
            Expr::Like(boxed(a), items(characters.collect()))
        }
        Expr::Get(a, text) => Expr::Get(boxed(a), text.clone()),
        Expr::Has(a, text) => Expr::Has(boxed(a), text.clone()),
        Expr::HasPath(a, path) if path.len() == 1 => Expr::Has(boxed(a), path[0].clone()),
        Expr::HasPath(a, path) => Expr::HasPath(boxed(a), path.clone()),
        Expr::Set(all) => Expr::Set(all.iter().map(plain).collect()),
        Expr::Record(all) => Expr::Record(all.iter().map(|(text, one)| (text.clone(), plain(one))).collect()),
    }
}

/// A few numbers that look random, the same on every run.
struct Random(u64);

impl Random {
    fn below(&mut self, choices: usize) -> usize {
        self.0 = self.0.wrapping_mul(6364136223846793005).wrapping_add(1442695040888963407);
        ((self.0 >> 33) % choices as u64) as usize
    }

    fn of<T: Copy>(&mut self, choices: &[T]) -> T {
        choices[self.below(choices.len())]
    }

    fn name(&mut self) -> Text {
        self.of(&[
            "a",
            "insured",
            "low band",
            "",
            "\"",
            "\\",
            "it's",
            "in",
            "if",
            "a*b",
            "*",
            "\\*",
            "?",
            "principal",
            "x,y",
            "\n",
        ])
        .into()
    }

    fn path(&mut self) -> Vec<Text> {
        (0..=self.below(3)).map(|_| self.of(&["a", "b", "context"]).into()).collect()
    }

    fn kind(&mut self) -> Text {
        self.of(&["Broker", "Carrier::Broker", "principal", "_"]).into()
    }

    fn literal(&mut self, depth: usize) -> Literal {
        match self.below(if depth == 0 { 4 } else { 6 }) {
            0 => Literal::Bool(self.below(2) == 0),
            1 => Literal::Long(self.of(&[0, 1, -1, 100, -100, i64::MAX, i64::MIN])),
            2 => Literal::String(self.name()),
            3 => Literal::Entity { kind: self.kind(), id: self.name() },
            4 => Literal::Set((0..self.below(3)).map(|_| self.literal(depth - 1)).collect()),
            _ => Literal::Record((0..self.below(3)).map(|_| (self.name(), self.literal(depth - 1))).collect()),
        }
    }

    fn tree(&mut self, depth: usize) -> Expr {
        if depth == 0 {
            return match self.below(6) {
                0 => Expr::Err,
                1 => Expr::Slot(self.of(&[Slot::Principal, Slot::Resource])),
                2 | 3 => Expr::Lit(self.literal(2)),
                _ => Expr::Var(self.of(&[Variable::Principal, Variable::Action, Variable::Resource, Variable::Context])),
            };
        }
        let depth = self.below(depth);
        match self.below(12) {
            0..=4 => Expr::Binary(self.of(&Binary::ALL), self.tree(depth).into(), self.tree(depth).into()),
            5 | 6 => Expr::Unary(self.of(&Unary::ALL), self.tree(depth).into()),
            7 => Expr::If(self.tree(depth).into(), self.tree(depth).into(), self.tree(depth).into()),
            8 => match self.below(3) {
                0 => Expr::Is(self.tree(depth).into(), self.kind()),
                1 => Expr::HasPath(self.tree(depth).into(), self.path()),
                _ => {
                    let pattern = (0..self.below(4)).map(|_| if self.below(2) == 0 { None } else { Some(self.name()) }).collect();
                    Expr::Like(self.tree(depth).into(), pattern)
                }
            },
            9 => Expr::Get(self.tree(depth).into(), self.name()),
            10 => Expr::Has(self.tree(depth).into(), self.name()),
            _ => match self.below(2) {
                0 => Expr::Set((0..self.below(3)).map(|_| self.tree(depth)).collect()),
                _ => Expr::Record((0..self.below(3)).map(|_| (self.name(), self.tree(depth))).collect()),
            },
        }
    }
}

#[test]
fn random_trees() {
    let mut random = Random(1);
    for _ in 0..10_000 {
        let tree = random.tree(6);
        let text = tree.to_string();
        assert_eq!(read(&text), plain(&tree), "{text}");
    }
}

/// What has no Cedar text is not read as something else.
#[test]
fn no_cedar_text() {
    let context = || Box::new(Expr::Var(Variable::Context));
    for tree in [
        Expr::Is(context(), "my kind".into()),
        Expr::Lit(Literal::Entity { kind: "A || B".into(), id: "b".into() }),
        Expr::HasPath(context(), vec!["a b".into(), "c".into()]),
        Expr::HasPath(context(), vec!["a".into(), "b c".into()]),
        Expr::Lit(Literal::Set(vec![Literal::Long(1); 2000].into())),
    ] {
        let text = tree.to_string();
        assert!(std::panic::catch_unwind(|| read(&text)).is_err(), "{text}");
    }
}
