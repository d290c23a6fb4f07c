//! The rule file of 01 ("Rule file", "Refused inputs"), with the templates 19 to 23 and the rank of
//! 02 (M-100, M-104): reading it, and writing it for the checks.

use std::cmp::Ordering;
use std::collections::BTreeMap;
use std::ops::RangeInclusive;

pub const STEP_TAG: u8 = 0x53;
pub const RULE_TAG: u8 = 0x52;
pub const MOST_STEPS: usize = 24;
pub const MOST_RULES: usize = 32;
pub const LONGEST_NAME: usize = 16;
pub const RULE_LENGTH: usize = 15;
/// The y of a rule whose template has none (templates 1 to 4).
pub const WITHOUT_Y: u8 = 0xFF;
/// All templates, and those in which y is a count of x.
pub const TEMPLATES: RangeInclusive<u8> = 1..=23;
pub const COUNTING: RangeInclusive<u8> = 19..=21;
/// The counts that a rule may have.
pub const COUNTS: RangeInclusive<u8> = 1..=14;
/// The templates that 02 (M-100) adds.
pub const ADDED_TEMPLATES: RangeInclusive<u8> = 19..=23;
/// A step number that no file declares.
pub const UNDECLARED: u8 = 0xFF;
/// The bits of the least float that is neither 0 nor subnormal.
pub const LEAST_NORMAL: u32 = 0x0080_0000;
/// The bits of 1.0, the largest weight.
pub const LARGEST_WEIGHT: u32 = 0x3F80_0000;

/// The refusal numbers of 01 ("Refused inputs") and 02 (M-100).
pub mod refusal {
    pub const AREA_TOO_SHORT: u32 = 1;
    pub const ENDS_INSIDE_FIELD: u32 = 2;
    pub const OTHER_TAG: u32 = 3;
    pub const STEP_AFTER_RULE: u32 = 4;
    pub const TOO_MANY_STEPS: u32 = 5;
    pub const BAD_NAME: u32 = 6;
    pub const NAME_USED_BEFORE: u32 = 7;
    pub const TOO_MANY_RULES: u32 = 8;
    pub const RULE_LENGTH: u32 = 9;
    pub const NO_SUCH_TEMPLATE: u32 = 10;
    pub const BAD_STEP_NUMBERS: u32 = 11;
    pub const WEIGHT_OUTSIDE: u32 = 12;
    pub const NO_STEP: u32 = 13;
    /// Where a rule is asked for.
    pub const NO_SUCH_RULE: u32 = 14;
    /// Of a run.
    pub const UNDECLARED_STEP: u32 = 15;
    /// Of a watch list.
    pub const UNKNOWN_STANDING: u32 = 16;
    /// Of a rule, tested right after its template.
    pub const BAD_COUNT: u32 = 17;
}

/// A rule as its field gives it; a weight is kept as its 32 bits.
#[derive(Clone, Debug, PartialEq, Eq)]
pub struct Rule {
    pub template: u8,
    pub x: u8,
    pub y: u8,
    /// Support, confidence, interest.
    pub weights: [u32; 3],
}

/// The names of the steps and the rules, both in file order.
#[derive(Clone, Debug, Default, PartialEq, Eq)]
pub struct RuleFile {
    pub steps: Vec<Vec<u8>>,
    pub rules: Vec<Rule>,
}

/// Reads a whole file, or gives the number of its refusal: the first faulty field decides, and in
/// it the number that is tested first: the lowest one, but 17 right after 10.
pub fn read(bytes: &[u8]) -> Result<RuleFile, u32> {
    let mut file = RuleFile::default();
    let mut rest = bytes;
    while !rest.is_empty() {
        let (tag, content, after) = split_field(rest).ok_or(refusal::ENDS_INSIDE_FIELD)?;
        match tag {
            STEP_TAG => file.read_step(content)?,
            RULE_TAG => file.read_rule(content)?,
            _ => return Err(refusal::OTHER_TAG),
        }
        rest = after;
    }
    if file.steps.is_empty() {
        return Err(refusal::NO_STEP);
    }
    Ok(file)
}

/// The tag and content of the first field, and the bytes after it; none if the bytes end inside it.
fn split_field(bytes: &[u8]) -> Option<(u8, &[u8], &[u8])> {
    let (head, rest) = bytes.split_at_checked(3)?;
    let length = usize::from(u16::from_be_bytes([head[1], head[2]]));
    let (content, after) = rest.split_at_checked(length)?;
    Some((head[0], content, after))
}

/// The refusal, if the condition for it holds.
fn refuse_if(condition: bool, number: u32) -> Result<(), u32> {
    if condition {
        Err(number)
    } else {
        Ok(())
    }
}

fn is_name(name: &[u8]) -> bool {
    let length_fits = (1..=LONGEST_NAME).contains(&name.len());
    length_fits && name.iter().all(|byte| (0x21..=0x7E).contains(byte))
}

impl RuleFile {
    fn read_step(&mut self, name: &[u8]) -> Result<(), u32> {
        refuse_if(!self.rules.is_empty(), refusal::STEP_AFTER_RULE)?;
        refuse_if(self.steps.len() == MOST_STEPS, refusal::TOO_MANY_STEPS)?;
        refuse_if(!is_name(name), refusal::BAD_NAME)?;
        let used_before = self.steps.iter().any(|earlier| earlier == name);
        refuse_if(used_before, refusal::NAME_USED_BEFORE)?;
        self.steps.push(name.to_vec());
        Ok(())
    }

    fn read_rule(&mut self, content: &[u8]) -> Result<(), u32> {
        refuse_if(self.rules.len() == MOST_RULES, refusal::TOO_MANY_RULES)?;
        refuse_if(content.len() != RULE_LENGTH, refusal::RULE_LENGTH)?;
        let rule = Rule::from_content(content);
        let known = TEMPLATES.contains(&rule.template);
        refuse_if(!known, refusal::NO_SUCH_TEMPLATE)?;
        let count_fits = rule.count().is_none_or(|count| COUNTS.contains(&count));
        refuse_if(!count_fits, refusal::BAD_COUNT)?;
        let steps_fit = rule.steps_fit(self.steps.len());
        refuse_if(!steps_fit, refusal::BAD_STEP_NUMBERS)?;
        let outside = rule.weights.iter().any(|&bits| bits > LARGEST_WEIGHT);
        refuse_if(outside, refusal::WEIGHT_OUTSIDE)?;
        self.rules.push(rule);
        Ok(())
    }

    /// Whether some rule has a template that 02 (M-100) adds.
    pub fn has_added_template(&self) -> bool {
        let mut templates = self.rules.iter().map(|rule| rule.template);
        templates.any(|template| ADDED_TEMPLATES.contains(&template))
    }

    /// The fields of the file, one after the other.
    pub fn fields(&self) -> Vec<Vec<u8>> {
        let steps = self.steps.iter().map(|name| field(STEP_TAG, name));
        let rules = self
            .rules
            .iter()
            .map(|rule| field(RULE_TAG, &rule.content()));
        steps.chain(rules).collect()
    }

    /// The bytes of the file.
    pub fn bytes(&self) -> Vec<u8> {
        self.fields().concat()
    }

    /// The index of the rule of this number, or the refusal of a number that the file lacks.
    pub fn rule_of(&self, number: u32) -> Result<usize, u32> {
        let rule = (number as usize).checked_sub(1);
        rule.filter(|&rule| rule < self.rules.len())
            .ok_or(refusal::NO_SUCH_RULE)
    }

    /// The file with 0 for each weight that is a subnormal float: what a processor may be told to
    /// take it for.
    pub fn without_subnormals(&self) -> RuleFile {
        let mut file = self.clone();
        let weights = file.rules.iter_mut().flat_map(|rule| &mut rule.weights);
        weights.for_each(|bits| {
            if *bits < LEAST_NORMAL {
                *bits = 0;
            }
        });
        file
    }

    /// Rule indices from the best rank to the worst (01, "Rule file": Rank; 02, M-104).
    pub fn order_of_decision(&self) -> Vec<usize> {
        let mut order: Vec<usize> = (0..self.rules.len()).collect();
        // The sort is stable, so that of equal rules the earlier goes first.
        order.sort_by(|&one, &other| self.rules[one].rank(&self.rules[other]));
        order
    }
}

impl Rule {
    /// A rule from content of the right length.
    fn from_content(content: &[u8]) -> Rule {
        let weight = |at: usize| {
            content[at..at + 4]
                .iter()
                .fold(0, |bits, &byte| bits << 8 | u32::from(byte))
        };
        Rule {
            template: content[0],
            x: content[1],
            y: content[2],
            weights: [weight(3), weight(7), weight(11)],
        }
    }

    /// Less where this rule ranks better: by larger support, confidence, interest, then the larger
    /// template number, the smaller x, the smaller y, which may be a count. Of equal rules the
    /// earlier does, which is not asked here.
    pub fn rank(&self, other: &Rule) -> Ordering {
        let by_weights = other.weights.cmp(&self.weights);
        by_weights
            .then(other.template.cmp(&self.template))
            .then(self.x.cmp(&other.x))
            .then(self.y.cmp(&other.y))
    }

    /// The template, with its count where it has one.
    pub fn form(&self) -> Form {
        (self.template, self.count())
    }

    /// How often x is to occur, which templates 19 to 21 have in place of a step y.
    pub fn count(&self) -> Option<u8> {
        COUNTING.contains(&self.template).then_some(self.y)
    }

    /// Its step y, which templates 1 to 4 and those with a count lack.
    pub fn second_step(&self) -> Option<u8> {
        (self.template > 4 && self.count().is_none()).then_some(self.y)
    }

    /// The steps that it names.
    pub fn own_steps(&self) -> Vec<u8> {
        [self.x].into_iter().chain(self.second_step()).collect()
    }

    /// Whether x and y are as refusal 11 wants them, which does not look at a count.
    fn steps_fit(&self, declared: usize) -> bool {
        let is_declared = |step: u8| usize::from(step) < declared;
        let y_fits = match self.template {
            1..=4 => self.y == WITHOUT_Y,
            19..=21 => true,
            _ => is_declared(self.y) && self.x != self.y,
        };
        is_declared(self.x) && y_fits
    }

    /// The 15 bytes of the rule's field.
    pub fn content(&self) -> Vec<u8> {
        let mut content = vec![self.template, self.x, self.y];
        content.extend(self.weights.iter().flat_map(|bits| bits.to_be_bytes()));
        content
    }
}

/// What tells rules over the same steps apart, beside weights: a template, with its count where it has
/// one.
pub type Form = (u8, Option<u8>);

/// A rule of each form over x and, where it names two steps, y.
pub fn rules_of_every_form(x: u8, y: u8) -> Vec<Rule> {
    let ys_of = |template: u8| match template {
        1..=4 => vec![WITHOUT_Y],
        19..=21 => COUNTS.collect(),
        _ => vec![y],
    };
    let rule = |template, y| Rule {
        template,
        x,
        y,
        weights: [0; 3],
    };
    let rules_of = |template| ys_of(template).into_iter().map(move |y| rule(template, y));
    TEMPLATES.flat_map(rules_of).collect()
}

/// What is made of a rule of each form over steps 0 and 1.
pub fn by_form<T>(make: impl Fn(&Rule) -> T) -> BTreeMap<Form, T> {
    let rules = rules_of_every_form(0, 1);
    rules.iter().map(|rule| (rule.form(), make(rule))).collect()
}

/// One field: tag, length, content.
pub fn field(tag: u8, content: &[u8]) -> Vec<u8> {
    let length = u16::try_from(content.len()).expect("content of a field in two bytes' length");
    let mut bytes = vec![tag];
    bytes.extend(length.to_be_bytes());
    bytes.extend(content);
    bytes
}
