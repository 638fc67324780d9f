//! The program check: the headers, then each body by a recursive parser.

/// A contact whose samples a trace has.
#[derive(Clone, Copy, Debug, PartialEq, Eq)]
pub enum Contact {
    Ram,
    Guard,
}

/// The sort of a program: over the ram contact alone, or over both.
#[derive(Clone, Copy, Debug, PartialEq, Eq, PartialOrd, Ord)]
pub enum Contacts {
    One,
    Two,
}

/// The kind of a value.
#[derive(Clone, Copy, Debug, PartialEq, Eq)]
pub enum Kind {
    Bool,
    /// A suffix of a contact's trace.
    List(Contact),
}

/// What a place demands.
#[derive(Clone, Copy, Debug, PartialEq, Eq)]
pub enum Demand {
    Only(Kind),
    /// A list of either contact.
    Either,
}

/// Where a node of a kind that is not demanded stands: the nearest place around it that is no branch of an if.
#[derive(Clone, Copy, Debug, PartialEq, Eq)]
pub enum Fault {
    /// A whole body.
    Body,
    /// An operand of hd, tl or null, or a condition.
    Operand,
    /// An argument of a call.
    Argument,
}

/// A value: a list is known by its trace and its length.
#[derive(Clone, Copy, Debug, PartialEq, Eq)]
pub enum Value {
    Bool(bool),
    Suffix(Contact, u16),
}

/// One step of a body, in the order in which the steps are taken.
#[derive(Clone, Copy, Debug)]
pub enum Step {
    /// Put a constant on the stack.
    Constant(Value),
    /// Put a parameter on the stack.
    Parameter(usize),
    Head,
    Tail,
    Null,
    /// Take a condition and go to the given step if it is False.
    Unless(usize),
    /// Go to the given step.
    Go(usize),
    /// Take the arguments of a function and put its outcome.
    Call(usize),
}

/// An accepted function.
#[derive(Debug)]
pub struct Function {
    pub parameters: Vec<Kind>,
    pub result: Kind,
    /// The body's bytes, and its steps.
    pub body: Vec<u8>,
    pub steps: Vec<Step>,
}

/// A function's header with its body's bytes.
struct Shape<'a> {
    parameters: Vec<Kind>,
    result: Kind,
    body: &'a [u8],
}

/// What a byte of a body stands for.
enum Node {
    Leaf(Step, Kind),
    /// hd and null.
    OfList(Step),
    Tail,
    If,
    Call(usize),
}

impl Contacts {
    pub const ALL: [Contacts; 2] = [Contacts::One, Contacts::Two];

    /// The contacts of a program of this sort.
    pub fn contacts(self) -> &'static [Contact] {
        match self {
            Contacts::One => &[Contact::Ram],
            Contacts::Two => &[Contact::Ram, Contact::Guard],
        }
    }

    /// The bytes of a header.
    pub fn header(self) -> usize {
        match self {
            Contacts::One => 4,
            Contacts::Two => 5,
        }
    }

    /// Main's parameters: a list of each contact.
    pub fn main(self) -> Vec<Kind> {
        self.contacts().iter().copied().map(Kind::List).collect()
    }
}

impl Kind {
    /// The value with a number among the values of a kind.
    pub fn value(self, digit: u16) -> Value {
        match self {
            Kind::Bool => Value::Bool(digit == 1),
            Kind::List(contact) => Value::Suffix(contact, digit),
        }
    }
}

impl Demand {
    pub fn allows(self, kind: Kind) -> bool {
        match self {
            Demand::Only(demanded) => kind == demanded,
            Demand::Either => kind != Kind::Bool,
        }
    }
}

impl Fault {
    /// The number that refuses it.
    pub fn number(self) -> u32 {
        match self {
            Fault::Body => 16,
            Fault::Operand => 25,
            Fault::Argument => 26,
        }
    }
}

impl Value {
    pub fn kind(self) -> Kind {
        match self {
            Value::Bool(_) => Kind::Bool,
            Value::Suffix(contact, _) => Kind::List(contact),
        }
    }

    /// Its number among the values of its kind.
    pub fn digit(self) -> u16 {
        match self {
            Value::Bool(bit) => bit.into(),
            Value::Suffix(_, length) => length,
        }
    }

    /// What a cell holds for it.
    pub fn cell(self) -> u16 {
        match self {
            Value::Bool(bit) => 1 + u16::from(bit),
            Value::Suffix(_, length) => 5 + length,
        }
    }
}

/// The sort that a count byte marks, and the number of functions.
pub fn counted(byte: u8) -> Option<(Contacts, u8)> {
    match byte {
        1..=32 => Some((Contacts::One, byte)),
        0x81..=0xA0 => Some((Contacts::Two, byte - 0x80)),
        _ => None,
    }
}

/// Checks a program of either sort: its functions, or the first refusal number.
pub fn check(program: &[u8]) -> Result<Vec<Function>, u32> {
    check_sorts(&Contacts::ALL, program)
}

/// Checks a program that must be of a sort.
pub fn check_for(contacts: Contacts, program: &[u8]) -> Result<Vec<Function>, u32> {
    check_sorts(&[contacts], program)
}

fn check_sorts(sorts: &[Contacts], program: &[u8]) -> Result<Vec<Function>, u32> {
    if program.is_empty() || program.len() > 4_096 {
        return Err(5);
    }
    let counted = counted(program[0]).filter(|(contacts, _)| sorts.contains(contacts));
    let (contacts, count) = counted.ok_or(6u32)?;
    let shapes = headers(contacts, &program[1..], count)?;
    if shapes[0].parameters != contacts.main() || shapes[0].result != Kind::Bool {
        return Err(11);
    }
    (0..shapes.len())
        .map(|own| body(contacts, &shapes, own))
        .collect()
}

/// Cuts the bytes after the count into functions.
fn headers(contacts: Contacts, mut rest: &[u8], count: u8) -> Result<Vec<Shape<'_>>, u32> {
    let mut shapes = Vec::new();
    for _ in 0..count {
        let shape = header(contacts, rest)?;
        rest = &rest[contacts.header() + shape.body.len()..];
        shapes.push(shape);
    }
    if rest.is_empty() {
        Ok(shapes)
    } else {
        Err(10)
    }
}

/// Reads one header and finds its body. The bits of the guard stand between the kinds and the length.
fn header(contacts: Contacts, rest: &[u8]) -> Result<Shape<'_>, u32> {
    let size = contacts.header();
    if rest.len() < size {
        return Err(7);
    }
    let (count, lists) = (rest[0], rest[1]);
    let guard = match contacts {
        Contacts::One => 0,
        Contacts::Two => rest[2],
    };
    if count > 4 {
        return Err(8);
    }
    let allowed = 0x10 | ((1u8 << count) - 1);
    if lists & !allowed != 0 || guard & !lists != 0 {
        return Err(8);
    }
    let length = usize::from(rest[size - 2]) + 256 * usize::from(rest[size - 1]);
    if length == 0 || length > 1_024 || length > rest.len() - size {
        return Err(9);
    }
    let kind = |bit: u8| match (lists >> bit & 1, guard >> bit & 1) {
        (0, _) => Kind::Bool,
        (_, 0) => Kind::List(Contact::Ram),
        _ => Kind::List(Contact::Guard),
    };
    Ok(Shape {
        parameters: (0..count).map(kind).collect(),
        result: kind(4),
        body: &rest[size..size + length],
    })
}

/// Parses one function's body.
fn body(contacts: Contacts, shapes: &[Shape], own: usize) -> Result<Function, u32> {
    let mut parser = Parser {
        contacts,
        shapes,
        own: &shapes[own],
        at: 0,
        steps: Vec::new(),
    };
    parser.expression(Demand::Only(shapes[own].result), Fault::Body, 1)?;
    if parser.at < shapes[own].body.len() {
        return Err(17);
    }
    Ok(Function {
        parameters: shapes[own].parameters.clone(),
        result: shapes[own].result,
        body: shapes[own].body.to_vec(),
        steps: parser.steps,
    })
}

/// Reads a body from front to back and writes its steps.
struct Parser<'a> {
    contacts: Contacts,
    shapes: &'a [Shape<'a>],
    own: &'a Shape<'a>,
    at: usize,
    steps: Vec<Step>,
}

impl Parser<'_> {
    /// Parses the expression that begins here, its first node at the given depth. A node of another kind than the one
    /// demanded is the given fault.
    fn expression(&mut self, demand: Demand, fault: Fault, depth: usize) -> Result<(), u32> {
        let byte = *self.own.body.get(self.at).ok_or(12u32)?;
        if depth > 64 {
            return Err(13);
        }
        let node = self.node(byte)?;
        if !self.fits(&node, demand) {
            return Err(fault.number());
        }
        self.at += 1;
        self.operands(node, demand, fault, depth + 1)
    }

    /// What a byte means in this body.
    fn node(&self, byte: u8) -> Result<Node, u32> {
        let place = usize::from(byte & 0x1F);
        let leaf = |kind: Kind, digit: u16| Node::Leaf(Step::Constant(kind.value(digit)), kind);
        match byte {
            0x00 | 0x01 => Ok(leaf(Kind::Bool, byte.into())),
            0x02 => Ok(leaf(Kind::List(Contact::Ram), 0)),
            0x03 if self.contacts == Contacts::Two => Ok(leaf(Kind::List(Contact::Guard), 0)),
            0x10..=0x13 => self.parameter(place - 0x10),
            0x20 => Ok(Node::OfList(Step::Head)),
            0x21 => Ok(Node::Tail),
            0x22 => Ok(Node::OfList(Step::Null)),
            0x23 => Ok(Node::If),
            0x24 => Err(14),
            0x80..=0x9F if place < self.shapes.len() => Ok(Node::Call(place)),
            _ => Err(15),
        }
    }

    /// A parameter of this function.
    fn parameter(&self, place: usize) -> Result<Node, u32> {
        let kind = self.own.parameters.get(place).ok_or(15u32)?;
        Ok(Node::Leaf(Step::Parameter(place), *kind))
    }

    /// Whether a place may have a node. An if may stand anywhere, and a tl wherever a list may.
    fn fits(&self, node: &Node, demand: Demand) -> bool {
        match node {
            Node::Leaf(_, kind) => demand.allows(*kind),
            Node::OfList(_) => demand.allows(Kind::Bool),
            Node::Tail => !demand.allows(Kind::Bool),
            Node::If => true,
            Node::Call(callee) => demand.allows(self.shapes[*callee].result),
        }
    }

    /// Parses what belongs to a node, and writes the node's steps. hd and null take a list of either contact, tl hands
    /// its demand on. An if alone hands its own sort of fault on.
    fn operands(
        &mut self,
        node: Node,
        demand: Demand,
        fault: Fault,
        depth: usize,
    ) -> Result<(), u32> {
        match node {
            Node::Leaf(step, _) => self.steps.push(step),
            Node::OfList(step) => {
                self.expression(Demand::Either, Fault::Operand, depth)?;
                self.steps.push(step);
            }
            Node::Tail => {
                self.expression(demand, Fault::Operand, depth)?;
                self.steps.push(Step::Tail);
            }
            Node::If => self.branches(demand, fault, depth)?,
            Node::Call(callee) => {
                let shapes = self.shapes;
                for kind in &shapes[callee].parameters {
                    self.expression(Demand::Only(*kind), Fault::Argument, depth)?;
                }
                self.steps.push(Step::Call(callee));
            }
        }
        Ok(())
    }

    /// Parses condition and branches of an if, and joins them by jumps.
    fn branches(&mut self, demand: Demand, fault: Fault, depth: usize) -> Result<(), u32> {
        self.expression(Demand::Only(Kind::Bool), Fault::Operand, depth)?;
        let unless = self.steps.len();
        self.steps.push(Step::Unless(0));
        self.expression(demand, fault, depth)?;
        let go = self.steps.len();
        self.steps.push(Step::Go(0));
        self.steps[unless] = Step::Unless(self.steps.len());
        self.expression(demand, fault, depth)?;
        self.steps[go] = Step::Go(self.steps.len());
        Ok(())
    }
}
