//! The grammar of a text: what it says, its names not yet looked up. One function a rule.
//!
//! Parentheses may stand 986 deep, and each takes three calls: conditions are boxed, and what needs
//! much room is a call of its own.

use super::words::{words, Word};
use crate::query::{Function, Operator};

pub struct Text {
    pub ranges: Vec<Range>,
    pub targets: Vec<Term>,
    /// None: there is no qualification.
    pub condition: Option<Box<Condition>>,
}

pub struct Range {
    pub relation: String,
    pub symbols: Vec<String>,
}

pub enum Condition {
    Not(Box<Condition>),
    And(Box<Condition>, Box<Condition>),
    Or(Box<Condition>, Box<Condition>),
    Compare(Operator, Term, Term),
    Exists(Exists),
}

pub struct Exists {
    pub symbol: String,
    pub relation: String,
    pub condition: Box<Condition>,
}

pub enum Term {
    Number(i32),
    /// A name with no point after it.
    Value(String),
    Attribute(Attribute),
    Aggregate(Box<Aggregate>),
}

pub struct Attribute {
    pub symbol: String,
    pub attribute: String,
}

pub struct Aggregate {
    pub function: Function,
    pub own: Attribute,
    pub condition: Option<Box<Condition>>,
}

/// None if the text is outside the grammar.
pub fn read(text: &[u8]) -> Option<Text> {
    let words = words(text)?;
    let mut reader = Reader { words: &words };
    let text = reader.text()?;
    reader.words.is_empty().then_some(text)
}

/// The words that are still to be read. A rule that fails gives None, and the text is none.
struct Reader<'a> {
    words: &'a [Word],
}

impl Reader<'_> {
    fn pass(&mut self) {
        self.words = &self.words[1..];
    }

    /// Passes this sign, if it comes next.
    fn has_sign(&mut self, sign: &'static str) -> bool {
        let is_next = self.words.first() == Some(&Word::Sign(sign));
        if is_next {
            self.pass();
        }
        is_next
    }

    fn has_reserved(&mut self, word: &'static str) -> bool {
        let is_next = self.words.first() == Some(&Word::Reserved(word));
        if is_next {
            self.pass();
        }
        is_next
    }

    fn sign(&mut self, sign: &'static str) -> Option<()> {
        self.has_sign(sign).then_some(())
    }

    fn reserved(&mut self, word: &'static str) -> Option<()> {
        self.has_reserved(word).then_some(())
    }

    fn name(&mut self) -> Option<String> {
        let Some(Word::Name(name)) = self.words.first() else {
            return None;
        };
        self.pass();
        Some(name.clone())
    }

    fn text(&mut self) -> Option<Text> {
        self.reserved("RANGE")?;
        let mut ranges = vec![self.range()?];
        while self.has_sign(":") {
            ranges.push(self.range()?);
        }
        self.reserved("RETRIEVE")?;
        let _workspace = self.name()?;
        self.sign(":")?;
        let mut targets = vec![self.target()?];
        while self.has_sign(",") {
            targets.push(self.target()?);
        }
        let condition = self.qualification(":")?;
        Some(Text {
            ranges,
            targets,
            condition,
        })
    }

    /// A condition after its mark, or neither.
    fn qualification(&mut self, mark: &'static str) -> Option<Option<Box<Condition>>> {
        if !self.has_sign(mark) {
            return Some(None);
        }
        self.condition().map(Some)
    }

    fn range(&mut self) -> Option<Range> {
        let relation = self.name()?;
        self.sign("(")?;
        let mut symbols = vec![self.name()?];
        while self.has_sign(",") {
            symbols.push(self.name()?);
        }
        self.sign(")")?;
        Some(Range { relation, symbols })
    }

    fn target(&mut self) -> Option<Term> {
        if let Some(function) = self.function() {
            return self.aggregate(function);
        }
        self.attribute().map(Term::Attribute)
    }

    fn attribute(&mut self) -> Option<Attribute> {
        let symbol = self.name()?;
        self.sign(".")?;
        let attribute = self.name()?;
        Some(Attribute { symbol, attribute })
    }

    /// Passes the name of a function, if it comes next.
    fn function(&mut self) -> Option<Function> {
        let Some(Word::Reserved(word)) = self.words.first() else {
            return None;
        };
        let function = match *word {
            "COUNT" => Function::Count,
            "SUM" => Function::Sum,
            "AVE" => Function::Average,
            "MAX" => Function::Maximum,
            "MIN" => Function::Minimum,
            _ => return None,
        };
        self.pass();
        Some(function)
    }

    /// What follows the name of a function.
    fn aggregate(&mut self, function: Function) -> Option<Term> {
        self.sign("(")?;
        let own = self.attribute()?;
        let condition = self.qualification(";")?;
        self.sign(")")?;
        Some(Term::Aggregate(Box::new(Aggregate {
            function,
            own,
            condition,
        })))
    }

    fn condition(&mut self) -> Option<Box<Condition>> {
        let mut left = self.conjunct()?;
        while self.has_reserved("V") {
            left = Box::new(Condition::Or(left, self.conjunct()?));
        }
        Some(left)
    }

    fn conjunct(&mut self) -> Option<Box<Condition>> {
        let mut left = self.factor()?;
        while self.has_sign("^") {
            left = Box::new(Condition::And(left, self.factor()?));
        }
        Some(left)
    }

    fn factor(&mut self) -> Option<Box<Condition>> {
        if self.has_reserved("NOT") {
            return Some(Box::new(Condition::Not(self.factor()?)));
        }
        if self.has_reserved("SOME") {
            return self.exists();
        }
        if self.has_sign("(") {
            let condition = self.condition()?;
            self.sign(")")?;
            return Some(condition);
        }
        self.comparison()
    }

    /// What follows SOME.
    #[inline(never)]
    fn exists(&mut self) -> Option<Box<Condition>> {
        let symbol = self.name()?;
        self.reserved("IN")?;
        let relation = self.name()?;
        self.sign("(")?;
        let condition = self.condition()?;
        self.sign(")")?;
        Some(Box::new(Condition::Exists(Exists {
            symbol,
            relation,
            condition,
        })))
    }

    #[inline(never)]
    fn comparison(&mut self) -> Option<Box<Condition>> {
        let left = self.term()?;
        let operator = self.operator()?;
        let right = self.term()?;
        Some(Box::new(Condition::Compare(operator, left, right)))
    }

    fn operator(&mut self) -> Option<Operator> {
        let Some(Word::Sign(sign)) = self.words.first() else {
            return None;
        };
        let operator = match *sign {
            "=" => Operator::Equal,
            "#" => Operator::Unequal,
            "<" => Operator::Less,
            "<=" => Operator::AtMost,
            ">" => Operator::Greater,
            ">=" => Operator::AtLeast,
            _ => return None,
        };
        self.pass();
        Some(operator)
    }

    fn term(&mut self) -> Option<Term> {
        if let Some(function) = self.function() {
            return self.aggregate(function);
        }
        if let Some(Word::Number(number)) = self.words.first() {
            self.pass();
            return Some(Term::Number(*number));
        }
        let name = self.name()?;
        if !self.has_sign(".") {
            return Some(Term::Value(name));
        }
        let attribute = self.name()?;
        Some(Term::Attribute(Attribute {
            symbol: name,
            attribute,
        }))
    }
}
