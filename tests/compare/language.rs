//! The language in pairs: the places where a node may stand, and the sorts of node that may stand there. Programs over
//! two contacts have more of both than programs over one. And the kind faults: nodes of other kinds in such places; and
//! the places where a call does not only loop.

use super::oracle::program::{Contact, Contacts, Demand, Fault, Kind};

/// The greatest depth of a node.
pub const DEEPEST: usize = 64;

pub const RAM: Kind = Kind::List(Contact::Ram);
pub const GUARD: Kind = Kind::List(Contact::Guard);
pub const BOOL: Demand = Demand::Only(Kind::Bool);

/// The most parameters of a function.
const MOST_PARAMETERS: usize = 4;
/// All kinds, and all demands.
const KINDS: [Kind; 3] = [Kind::Bool, RAM, GUARD];
const DEMANDS: [Demand; 4] = [BOOL, Demand::Only(RAM), Demand::Only(GUARD), Demand::Either];

/// The kinds in programs of a sort.
pub fn kinds(contacts: Contacts) -> &'static [Kind] {
    &KINDS[..1 + contacts.contacts().len()]
}

/// The mixes of parameters in programs of a sort, from none to four.
pub fn mixes(contacts: Contacts) -> Vec<Vec<Kind>> {
    let mut mixes = vec![Vec::new()];
    let mut longest = mixes.clone();
    for _ in 0..MOST_PARAMETERS {
        let longer = |mix: &Vec<Kind>| {
            let one_more = |kind: &Kind| [&mix[..], &[*kind]].concat();
            kinds(contacts).iter().map(one_more).collect::<Vec<_>>()
        };
        longest = longest.iter().flat_map(longer).collect();
        mixes.extend(longest.clone());
    }
    mixes
}

/// The demands in programs of a sort. Where there is one contact, either is that one.
pub fn demands(contacts: Contacts) -> &'static [Demand] {
    match contacts {
        Contacts::One => &DEMANDS[..2],
        Contacts::Two => &DEMANDS,
    }
}

pub fn kind_number(kind: Kind) -> usize {
    match kind {
        Kind::Bool => 0,
        Kind::List(contact) => 1 + contact as usize,
    }
}

fn demand_number(demand: Demand) -> usize {
    match demand {
        Demand::Only(kind) => kind_number(kind),
        Demand::Either => 3,
    }
}

pub fn kind_name(kind: Kind) -> &'static str {
    match kind {
        Kind::Bool => "Bool",
        RAM => "list",
        GUARD => "guard list",
    }
}

pub fn mix_name(mix: &[Kind]) -> String {
    let names: Vec<&str> = mix.iter().copied().map(kind_name).collect();
    format!("parameters ({})", names.join(", "))
}

pub fn demand_name(demand: Demand) -> &'static str {
    match demand {
        Demand::Only(kind) => kind_name(kind),
        Demand::Either => "list of either",
    }
}

/// What tells the sorts of programs apart in words.
pub fn over(contacts: Contacts) -> &'static str {
    match contacts {
        Contacts::One => "",
        Contacts::Two => " over two contacts",
    }
}

/// Where a node stands: of a tl, a condition and a branch with what is demanded of the node above it.
#[derive(Clone, Copy, PartialEq, Eq, Debug)]
pub enum Place {
    Body(Kind),
    Head,
    Null,
    Tail(Demand),
    Condition(Demand),
    Then(Demand),
    Else(Demand),
    /// How many arguments the call has, which of them this is, and its kind.
    Argument(usize, usize, Kind),
}

/// What stands in a place. An operand of hd, tl and null, and a condition, that is a parameter makes a sort
/// of its own, and so does a condition that is the null or the hd of a parameter.
#[derive(Clone, Copy, PartialEq, Eq, Debug)]
pub enum Sort {
    False,
    True,
    Empty(Contact),
    Parameter(usize, Kind),
    HeadOfParameter(Contact),
    Head,
    TailOfParameter(Contact),
    Tail,
    NullOfParameter(Contact),
    Null,
    IfParameter,
    IfNullOfParameter(Contact),
    IfHeadOfParameter(Contact),
    If,
    /// A call of so many arguments, with a result of a kind.
    Call(usize, Kind),
}

/// What comes of a node that is taken.
#[derive(Clone, Copy, PartialEq, Eq, Debug)]
pub enum Outcome {
    Undecided,
    HeadOfEmpty,
    TailOfEmpty,
    /// False or the empty list.
    Least,
    /// True or a list that is not empty.
    More,
}

impl Outcome {
    pub const COUNT: usize = 5;
    pub const ALL: [Outcome; Outcome::COUNT] = [
        Outcome::Undecided,
        Outcome::HeadOfEmpty,
        Outcome::TailOfEmpty,
        Outcome::Least,
        Outcome::More,
    ];
}

impl Place {
    /// How many places there are.
    pub const COUNT: usize = 50;

    /// All places in programs of a sort, in the order of their numbers.
    pub fn all(contacts: Contacts) -> Vec<Place> {
        let (kinds, demands) = (kinds(contacts).iter(), demands(contacts).iter());
        let mut places = vec![Place::Head, Place::Null];
        places.extend(demands.clone().skip(1).copied().map(Place::Tail));
        places.extend(kinds.clone().copied().map(Place::Body));
        for place in [Place::Condition, Place::Then, Place::Else] {
            places.extend(demands.clone().copied().map(place));
        }
        for count in 1..=4 {
            for which in 0..count {
                let argument = |kind: &Kind| Place::Argument(count, which, *kind);
                places.extend(kinds.clone().map(argument));
            }
        }
        places
    }

    pub fn number(self) -> usize {
        match self {
            Place::Head => 0,
            Place::Null => 1,
            Place::Tail(demand) => 1 + demand_number(demand),
            Place::Body(kind) => 5 + kind_number(kind),
            Place::Condition(demand) => 8 + demand_number(demand),
            Place::Then(demand) => 12 + demand_number(demand),
            Place::Else(demand) => 16 + demand_number(demand),
            Place::Argument(count, which, kind) => {
                20 + 3 * (count * (count - 1) / 2 + which) + kind_number(kind)
            }
        }
    }

    /// What is demanded here, in a program of a sort.
    pub fn demand(self, contacts: Contacts) -> Demand {
        match self {
            Place::Head | Place::Null => demands(contacts)[demands(contacts).len() - 1],
            Place::Condition(_) => BOOL,
            Place::Tail(demand) | Place::Then(demand) | Place::Else(demand) => demand,
            Place::Body(kind) | Place::Argument(_, _, kind) => Demand::Only(kind),
        }
    }

    pub fn is_body(self) -> bool {
        matches!(self, Place::Body(_))
    }

    /// The sort of a kind fault here; a branch has that of the place of its if.
    pub fn fault(self) -> Option<Fault> {
        match self {
            Place::Body(_) => Some(Fault::Body),
            Place::Head | Place::Tail(_) | Place::Null => Some(Fault::Operand),
            Place::Condition(_) => Some(Fault::Operand),
            Place::Argument(..) => Some(Fault::Argument),
            Place::Then(_) | Place::Else(_) => None,
        }
    }

    /// Whether nothing of the node whose operand stands here follows that.
    pub fn is_last(self) -> bool {
        match self {
            Place::Condition(_) | Place::Then(_) => false,
            Place::Argument(count, which, _) => which + 1 == count,
            _ => true,
        }
    }

    /// What is demanded of the node whose operand stands here; of a call it may be anything.
    pub fn demand_above(self) -> Option<Demand> {
        match self {
            Place::Head | Place::Null => Some(BOOL),
            Place::Tail(demand) => Some(demand),
            Place::Condition(demand) | Place::Then(demand) | Place::Else(demand) => Some(demand),
            Place::Body(_) | Place::Argument(..) => None,
        }
    }

    /// The least depth of a node here. A whole body is never a list of either contact.
    pub fn least_depth(self) -> usize {
        match self {
            Place::Body(_) => 1,
            _ if self.demand_above() == Some(Demand::Either) => 3,
            _ => 2,
        }
    }

    pub fn name(self) -> String {
        match self {
            Place::Head => "hd".to_string(),
            Place::Null => "null".to_string(),
            Place::Tail(demand) => format!("tl for a {}", demand_name(demand)),
            Place::Body(kind) => format!("body of a {}", kind_name(kind)),
            Place::Condition(demand) => format!("condition for a {}", demand_name(demand)),
            Place::Then(demand) => format!("first branch for a {}", demand_name(demand)),
            Place::Else(demand) => format!("second branch for a {}", demand_name(demand)),
            Place::Argument(count, which, kind) => {
                format!("argument {which} of {count}, a {}", kind_name(kind))
            }
        }
    }
}

impl Sort {
    /// How many sorts there are.
    pub const COUNT: usize = 46;

    /// All sorts in programs over these contacts, in the order of their numbers.
    pub fn all(contacts: Contacts) -> Vec<Sort> {
        let kinds = kinds(contacts);
        let of_lists = |sort: fn(Contact) -> Sort| contacts.contacts().iter().copied().map(sort);
        let mut sorts = vec![Sort::False, Sort::True];
        sorts.extend(of_lists(Sort::Empty));
        for which in 0..4 {
            sorts.extend(kinds.iter().map(|kind| Sort::Parameter(which, *kind)));
        }
        sorts.extend(of_lists(Sort::HeadOfParameter));
        sorts.push(Sort::Head);
        sorts.extend(of_lists(Sort::TailOfParameter));
        sorts.push(Sort::Tail);
        sorts.extend(of_lists(Sort::NullOfParameter));
        sorts.push(Sort::Null);
        sorts.push(Sort::IfParameter);
        sorts.extend(of_lists(Sort::IfNullOfParameter));
        sorts.extend(of_lists(Sort::IfHeadOfParameter));
        sorts.push(Sort::If);
        for count in 0..=4 {
            sorts.extend(kinds.iter().map(|kind| Sort::Call(count, *kind)));
        }
        sorts
    }

    pub fn number(self) -> usize {
        match self {
            Sort::False => 0,
            Sort::True => 1,
            Sort::Empty(contact) => 2 + contact as usize,
            Sort::Parameter(which, kind) => 4 + 3 * which + kind_number(kind),
            Sort::HeadOfParameter(contact) => 16 + contact as usize,
            Sort::Head => 18,
            Sort::TailOfParameter(contact) => 19 + contact as usize,
            Sort::Tail => 21,
            Sort::NullOfParameter(contact) => 22 + contact as usize,
            Sort::Null => 24,
            Sort::IfParameter => 25,
            Sort::IfNullOfParameter(contact) => 26 + contact as usize,
            Sort::IfHeadOfParameter(contact) => 28 + contact as usize,
            Sort::If => 30,
            Sort::Call(count, kind) => 31 + 3 * count + kind_number(kind),
        }
    }

    /// Whether a node of this sort may stand where something is demanded.
    pub fn fits(self, demand: Demand) -> bool {
        match self {
            Sort::Empty(contact) | Sort::TailOfParameter(contact) => {
                demand.allows(Kind::List(contact))
            }
            Sort::Tail => demand != BOOL,
            Sort::False | Sort::True => demand == BOOL,
            Sort::HeadOfParameter(_) | Sort::Head => demand == BOOL,
            Sort::NullOfParameter(_) | Sort::Null => demand == BOOL,
            Sort::Parameter(_, kind) | Sort::Call(_, kind) => demand.allows(kind),
            _ => true,
        }
    }

    /// The kind of a node of this sort; a tl and an if have the one demanded.
    fn kind(self) -> Option<Kind> {
        match self {
            Sort::Empty(contact) => Some(Kind::List(contact)),
            Sort::Parameter(_, kind) | Sort::Call(_, kind) => Some(kind),
            Sort::TailOfParameter(_) | Sort::Tail => None,
            Sort::IfParameter | Sort::IfNullOfParameter(_) => None,
            Sort::IfHeadOfParameter(_) | Sort::If => None,
            _ => Some(Kind::Bool),
        }
    }

    /// Whether a node of this sort is at fault itself where something is demanded. Of a tl in a list's place it is the
    /// operand that may be.
    pub fn at_fault(self, demand: Demand) -> bool {
        match self {
            Sort::TailOfParameter(_) => demand == BOOL,
            _ => !self.fits(demand),
        }
    }

    /// How many nodes must stand below a node of this sort, one below the other.
    pub fn below(self) -> usize {
        match self {
            Sort::False | Sort::True | Sort::Empty(_) => 0,
            Sort::Parameter(..) | Sort::Call(0, _) => 0,
            Sort::IfNullOfParameter(_) | Sort::IfHeadOfParameter(_) => 2,
            _ => 1,
        }
    }

    /// What may come of a node of this sort. Without a list at hand there is only the empty one.
    pub fn outcomes(self) -> &'static [Outcome] {
        use Outcome::*;
        match self {
            Sort::Call(0, Kind::List(_)) => &[Undecided, HeadOfEmpty, TailOfEmpty, Least],
            Sort::False | Sort::Empty(_) => &[Least],
            Sort::True => &[More],
            Sort::Parameter(..) | Sort::NullOfParameter(_) => &[Least, More],
            Sort::HeadOfParameter(_) => &[HeadOfEmpty, Least, More],
            Sort::TailOfParameter(_) => &[TailOfEmpty, Least, More],
            _ => &[Undecided, HeadOfEmpty, TailOfEmpty, Least, More],
        }
    }

    pub fn name(self) -> String {
        let of = |name: &str, contact: Contact| match contact {
            Contact::Ram => name.to_string(),
            Contact::Guard => format!("{name}-guard"),
        };
        let with = |name: String, kind: Kind| match kind {
            GUARD => of(&name, Contact::Guard),
            _ => name,
        };
        match self {
            Sort::False => "False".to_string(),
            Sort::True => "True".to_string(),
            Sort::Empty(contact) => of("empty", contact),
            Sort::Parameter(which, kind) => with(format!("p{which}"), kind),
            Sort::HeadOfParameter(contact) => of("hd-p", contact),
            Sort::Head => "hd".to_string(),
            Sort::TailOfParameter(contact) => of("tl-p", contact),
            Sort::Tail => "tl".to_string(),
            Sort::NullOfParameter(contact) => of("null-p", contact),
            Sort::Null => "null".to_string(),
            Sort::IfParameter => "if-p".to_string(),
            Sort::IfNullOfParameter(contact) => of("if-null-p", contact),
            Sort::IfHeadOfParameter(contact) => of("if-hd-p", contact),
            Sort::If => "if".to_string(),
            Sort::Call(count, kind) => with(format!("call-{count}"), kind),
        }
    }
}

/// Every sort in every place that may have it.
pub fn pairs(contacts: Contacts) -> Vec<(Place, Sort)> {
    let mut pairs = Vec::new();
    for place in Place::all(contacts) {
        let sorts = Sort::all(contacts).into_iter();
        pairs.extend(
            sorts
                .filter(|sort| sort.fits(place.demand(contacts)))
                .map(|sort| (place, sort)),
        );
    }
    pairs
}

/// The depths at which a sort may stand in a place.
pub fn depths(place: Place, sort: Sort) -> std::ops::RangeInclusive<usize> {
    let deepest = match place.is_body() {
        true => 1,
        false => DEEPEST - sort.below(),
    };
    place.least_depth()..=deepest
}

/// Every pair in an operand of a node that itself stands in any place: that place first. Of two contacts only the
/// places where a list of either is demanded are taken.
pub fn triples(contacts: Contacts) -> Vec<(Place, Place, Sort)> {
    let mut triples = Vec::new();
    let wanted = |place: &Place| match contacts {
        Contacts::One => true,
        Contacts::Two => place.demand(contacts) == Demand::Either,
    };
    for above in Place::all(contacts).into_iter().filter(wanted) {
        for (place, sort) in pairs(contacts) {
            let demand = above.demand(contacts);
            let fits = place.demand_above().is_none_or(|it| it == demand);
            if fits && !place.is_body() {
                triples.push((above, place, sort));
            }
        }
    }
    triples
}

/// A node of a kind that is not demanded, in a place or in the nesting of two.
#[derive(Clone, Copy, PartialEq, Eq, Debug)]
pub struct Nesting {
    /// From the outer place to the node's own: a place that is no branch, a branch in it, a second place that is none,
    /// a branch in that. Only the first is always there. An argument stands for any of its kind.
    pub places: [Option<Place>; 4],
    /// The kind of the node; a tl has none of its own.
    pub kind: Option<Kind>,
}

impl Nesting {
    pub fn places(&self) -> impl DoubleEndedIterator<Item = Place> {
        self.places.into_iter().flatten()
    }

    /// The sorts of node that are such a fault.
    pub fn sorts(&self, contacts: Contacts) -> Vec<Sort> {
        let own = self.places().next_back().expect("a node has a place");
        let demand = own.demand(contacts);
        let fits = |sort: &Sort| sort.at_fault(demand) && sort.kind() == self.kind;
        Sort::all(contacts).into_iter().filter(fits).collect()
    }

    pub fn name(&self) -> String {
        let node = self.kind.map_or("tl", kind_name);
        let places = self.places().rev().map(|place| match place {
            Place::Argument(_, _, kind) => format!(" in an argument, a {}", kind_name(kind)),
            place => format!(" in {}", place.name()),
        });
        format!("{node} at fault{}", places.collect::<String>())
    }
}

/// The places that have a sort of fault of their own; of the arguments those of calls of one.
fn places_of_faults(contacts: Contacts) -> Vec<Place> {
    let mut places = Place::all(contacts);
    places.retain(|place| place.fault().is_some());
    places.retain(|place| !matches!(place, Place::Argument(2.., ..)));
    places
}

/// No branch, or one of an if that something is demanded of.
fn branches(demand: Demand) -> [Option<Place>; 3] {
    [None, Some(Place::Then(demand)), Some(Place::Else(demand))]
}

/// Every kind that is not demanded in every place, and in every place within every other, with ifs between them and
/// without.
pub fn nestings(contacts: Contacts) -> Vec<Nesting> {
    let mut paths = Vec::new();
    for outer in places_of_faults(contacts) {
        let demand = outer.demand(contacts);
        let fits = |inner: &Place| {
            !inner.is_body() && inner.demand_above().is_none_or(|above| above == demand)
        };
        for between in branches(demand) {
            paths.push([Some(outer), between, None, None]);
            for inner in places_of_faults(contacts).into_iter().filter(fits) {
                let below = branches(inner.demand(contacts)).into_iter();
                paths.extend(below.map(|below| [Some(outer), between, Some(inner), below]));
            }
        }
    }
    let mut nestings = Vec::new();
    for places in paths {
        let mut nodes: Vec<Option<Kind>> = kinds(contacts).iter().copied().map(Some).collect();
        nodes.push(None);
        let all = nodes.into_iter().map(|kind| Nesting { places, kind });
        nestings.extend(all.filter(|nesting| !nesting.sorts(contacts).is_empty()));
    }
    nestings
}

/// A call that does not only loop: it stands in an operand, a condition or an argument, or is a branch of an if there.
#[derive(Clone, Copy, PartialEq, Eq, Debug)]
pub struct Elsewhere {
    pub place: Place,
    pub branch: Option<Place>,
}

impl Elsewhere {
    pub fn name(&self) -> String {
        let places = self.branch.into_iter().chain([self.place]);
        let places = places.map(|place| format!(" in {}", place.name()));
        format!("a call{}", places.collect::<String>())
    }
}

/// Every place where a call does not only loop.
pub fn elsewhere(contacts: Contacts) -> Vec<Elsewhere> {
    let mut places = Place::all(contacts);
    places.retain(|place| !place.is_body() && place.fault().is_some());
    let in_place = |place: Place| {
        let branches = branches(place.demand(contacts)).into_iter();
        branches.map(move |branch| Elsewhere { place, branch })
    };
    places.into_iter().flat_map(in_place).collect()
}
