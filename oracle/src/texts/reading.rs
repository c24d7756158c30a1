//! Reading a rule text and a policy text whole, or refusing them at the first
//! place that document 01's order names.

use super::spelling::{address, port, protocol};
use crate::model::{
    Action, Block, Directive, Exception, PolicySet, Refusal, Rule, RuleSet, MOST_DIRECTIVES,
    MOST_EXCEPTIONS, MOST_RULES,
};

pub const MOST_BYTES: usize = 32_768;

pub fn rules(text: &[u8]) -> Result<RuleSet, Refusal> {
    let mut rules = vec![];
    for line in lines(text)? {
        line.refuse_unless(line.word() == b"rule", 3, 1)?;
        line.refuse_unless(line.fields.len() == 6, 4, 0)?;
        line.refuse_unless(rules.len() < MOST_RULES, 13, 0)?;
        rules.push(Rule {
            action: line.action()?,
            block: line.block(3)?,
        });
    }
    Ok(RuleSet::new(rules))
}

pub fn policy(text: &[u8]) -> Result<PolicySet, Refusal> {
    let mut directives: Vec<Directive> = vec![];
    let mut exceptions: Vec<Exception> = vec![];
    for line in lines(text)? {
        match line.word() {
            b"ask" => directives.push(directive(&line, directives.len())?),
            b"but" => exceptions.push(exception(&line, &directives, exceptions.len())?),
            _ => return Err(line.refusal(3, 1)),
        }
    }
    Ok(PolicySet::new(directives, exceptions))
}

fn directive(line: &Line, before: usize) -> Result<Directive, Refusal> {
    line.refuse_unless(line.fields.len() == 6, 4, 0)?;
    line.refuse_unless(before < MOST_DIRECTIVES, 13, 0)?;
    Ok(Directive {
        action: line.action()?,
        block: line.block(3)?,
    })
}

fn exception(line: &Line, above: &[Directive], before: usize) -> Result<Exception, Refusal> {
    line.refuse_unless(line.fields.len() == 5, 4, 0)?;
    let Some(nearest) = above.last() else {
        return Err(line.refusal(11, 0));
    };
    line.refuse_unless(before < MOST_EXCEPTIONS, 13, 0)?;
    let block = line.block(2)?;
    line.refuse_unless(block.lies_inside(nearest.block), 12, 0)?;
    Ok(Exception {
        directive: above.len() as u32,
        block,
    })
}

/// A line that is not skipped, with its number in the text.
struct Line<'a> {
    number: u32,
    fields: Vec<&'a [u8]>,
}

/// The lines that are not skipped, unless the text is refused as a whole.
fn lines(text: &[u8]) -> Result<Vec<Line<'_>>, Refusal> {
    if text.len() > MOST_BYTES {
        return Err(refusal(1, 0, 0));
    }
    let mut pieces: Vec<&[u8]> = text.split(|byte| *byte == b'\n').collect();
    // Behind the last byte 10 there is one more piece, and it is no line.
    if pieces.pop() != Some(b"") {
        return Err(refusal(2, pieces.len() as u32 + 1, 0));
    }
    let numbered = (1..).zip(pieces);
    let kept = numbered.filter(|(_, piece)| !piece.is_empty() && !piece.starts_with(b"#"));
    Ok(kept
        .map(|(number, piece)| Line::new(number, piece))
        .collect())
}

impl Line<'_> {
    fn new(number: u32, piece: &[u8]) -> Line<'_> {
        Line {
            number,
            fields: piece.split(|byte| *byte == b'\t').collect(),
        }
    }

    fn word(&self) -> &[u8] {
        self.fields[0]
    }

    fn action(&self) -> Result<Action, Refusal> {
        match self.fields[1] {
            b"accept" => Ok(Action::Accept),
            b"deny" => Ok(Action::Deny),
            _ => Err(self.refusal(5, 2)),
        }
    }

    /// The block in four fields, the first of which has this number.
    fn block(&self, first: u32) -> Result<Block, Refusal> {
        let spellings = [address, address, protocol, port];
        let mut block = Block::ZERO;
        for (place, spelling) in spellings.into_iter().enumerate() {
            let field = first + place as u32;
            block.0[place] = spelling(self.fields[field as usize - 1])
                .map_err(|number| self.refusal(number, field))?;
        }
        Ok(block)
    }

    fn refuse_unless(&self, fine: bool, number: u32, field: u32) -> Result<(), Refusal> {
        if fine {
            Ok(())
        } else {
            Err(self.refusal(number, field))
        }
    }

    fn refusal(&self, number: u32, field: u32) -> Refusal {
        refusal(number, self.number, field)
    }
}

fn refusal(number: u32, line: u32, field: u32) -> Refusal {
    Refusal {
        number,
        line,
        field,
    }
}
