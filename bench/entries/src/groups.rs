//! The calls that are timed, in groups.

use reference::{
    call::Call,
    generate::prng::Prng,
    inst::{ArrayInstance, VecInstance},
    records::{Target, struct_type},
    source::{Instance, Type},
    ty::Ty,
};

use crate::plain::Plain;

/// Calls that are timed together: a pass makes each of them once.
pub struct Group {
    pub name: String,
    pub calls: Vec<Call>,
    /// what one time is told for: a call, or a part of it where a call is long
    pub unit: &'static str,
    /// how many of those a pass has
    pub units: usize,
    /// the name with N for the size, and the number of literals in one call, where the same is timed at several sizes
    pub size: Option<(String, usize)>,
    /// the C loop that does the same, for arrays of values
    pub plain: Option<Plain>,
}

impl Group {
    /// The name, with N for the size where there is one.
    pub fn common_name(&self) -> &str {
        self.size.as_ref().map_or(&self.name, |(name, _)| name)
    }

    pub fn is_typing(&self) -> bool {
        self.name.starts_with("type_ctor")
    }

    pub fn same_but_for_size(&self, other: &Group) -> bool {
        self.common_name() == other.common_name()
    }
}

/// Every array group has so many literals in all its calls together: the smaller its arrays, the more of them, all
/// different. A processor learns the order of kinds of a small array that is given again and again, and predicts its
/// branches, so that small sizes would look better than they are.
const LITERALS: usize = 60_000;

/// The sizes of all array groups, in literals.
const SIZES: [usize; 3] = [600, 6_000, 60_000];

/// The array that is plotted, with its further sizes.
pub const PLOTTED: &str = "call_ctor array of N mixed literals";
const SMALL_SIZES: [usize; 2] = [6, 60];

/// The groups that are also timed as a route, and their names then: constants of all sorts, and short ones, where what a
/// job adds tells most.
const ROUTES: [(&str, &str); 2] = [
    ("call_ctor a route of 200 constants", "call_batch a route of 200 constants"),
    ("call_ctor f32 of one literal", "call_batch a route of 200 times f32"),
];

/// How many constants a route has.
const CONSTANTS: usize = 200;

/// All groups, the same in every run.
pub fn groups() -> Vec<Group> {
    let mut route = Route(Prng::new(1));
    let building = several(&mut route);
    let (arrays, conversions) = (arrays(&mut route), conversions(&mut route));
    let types = building.iter().map(|(name, jobs)| group(format!("type_ctor {name}"), jobs, Job::typing));
    let values = building.iter().map(|(name, jobs)| group(format!("call_ctor {name}"), jobs, Job::build));
    let array_types = arrays.iter().filter(|a| SIZES.contains(&a.literals())).map(Array::typing);
    values.chain(arrays.iter().map(Array::build)).chain(conversions).chain(types).chain(array_types).collect()
}

/// The routes among them: calls that are timed in one.
pub fn routes(groups: &[Group]) -> Vec<Group> {
    let calls = |name| groups.iter().filter(move |g| g.name == name).flat_map(|g| &g.calls);
    let route = |(of, name): (_, &str)| Group {
        name: name.to_string(),
        calls: calls(of).take(CONSTANTS).cloned().collect(),
        unit: "constant",
        units: CONSTANTS,
        size: None,
        plain: None,
    };
    ROUTES.map(route).into()
}

/// A number with commas between the thousands.
pub fn commas(n: usize) -> String {
    if n < 1000 { n.to_string() } else { format!("{},{:03}", commas(n / 1000), n % 1000) }
}

// -----
// CALLS
// -----

/// What a building call, and the typing of the same, are made from.
struct Job {
    target: Target,
    args: Vec<Instance>,
}

impl Job {
    fn new(ty: Type, args: Vec<Instance>) -> Job {
        Job { target: Target::Type(ty), args }
    }

    fn untyped(args: Vec<Instance>) -> Job {
        Job { target: Target::Array, args }
    }

    fn build(&self) -> Call {
        Call::build(0, &self.target, &self.args)
    }

    fn typing(&self) -> Call {
        let types: Vec<Type> = self.args.iter().map(|a| a.ty()).collect();
        Call::typing(&self.target, &types)
    }
}

fn vector_type(n: u8) -> Type {
    Type::Vec(n, Type::F32.into())
}

fn matrix_type(c: u8, r: u8) -> Type {
    Type::Mat(c, r, Type::F32.into())
}

fn array_type(n: usize, element: Type) -> Type {
    Type::Array(element.into(), Some(n))
}

/// Numbers as a route has them: bores, chainages, offsets. Small, and exact or not in f32.
struct Route(Prng);

impl Route {
    fn real(&mut self) -> Instance {
        (self.0.below(1 << 31) as f64 / 1024.0 - 1_000_000.0).into()
    }

    fn whole(&mut self) -> Instance {
        (self.0.below(100_000) as i64).into()
    }

    fn single(&mut self) -> Instance {
        (self.0.below(1 << 31) as f32 / 64.0).into()
    }

    /// Two of three are abstract, as in source text.
    fn mixed(&mut self) -> Instance {
        match self.0.below(3) {
            0 => self.whole(),
            1 => self.real(),
            _ => self.single(),
        }
    }

    fn many<T>(&mut self, n: usize, mut one: impl FnMut(&mut Route) -> T) -> Vec<T> {
        (0..n).map(|_| one(self)).collect()
    }

    fn vector(&mut self, n: usize, one: fn(&mut Route) -> Instance) -> Instance {
        VecInstance::new(self.many(n, one)).into()
    }
}

// ------
// GROUPS
// ------

/// Times are told for a call.
fn group(name: String, jobs: &[Job], call: fn(&Job) -> Call) -> Group {
    Group { name, calls: jobs.iter().map(call).collect(), unit: "call", units: jobs.len(), size: None, plain: None }
}

/// Times are told for a part. `n` is what the name says: the number of elements.
fn sized(name: &str, n: usize, literals: usize, unit: &'static str, calls: Vec<Call>, plain: Option<Plain>) -> Group {
    let units = literals * calls.len();
    Group { name: name.replace('N', &commas(n)), calls, unit, units, size: Some((name.to_string(), literals)), plain }
}

/// The groups of short calls.
fn several(route: &mut Route) -> Vec<(&'static str, Vec<Job>)> {
    vec![
        ("f32 of one literal", route.many(1000, |r| Job::new(Type::F32, vec![r.mixed()]))),
        ("vec3 of three literals", route.many(1000, |r| Job::new(vector_type(3), r.many(3, Route::mixed)))),
        ("mat4x4 of sixteen literals", route.many(200, |r| Job::new(matrix_type(4, 4), r.many(16, Route::real)))),
        (
            "mat4x4 of four vec4",
            route.many(200, |r| Job::new(matrix_type(4, 4), r.many(4, |r| r.vector(4, Route::real)))),
        ),
        ("a route of 200 constants", (0..200).map(|i| constant(i, route)).collect()),
    ]
}

/// A constant of a route: scalars, vectors, matrices, small arrays and structs.
fn constant(i: usize, route: &mut Route) -> Job {
    match i % 20 {
        0..6 => Job::new(Type::F32, vec![route.mixed()]),
        6 => Job::new(Type::I32, vec![route.whole()]),
        7 => Job::new(Type::U32, vec![route.whole()]),
        8..12 => Job::new(vector_type(3), route.many(3, Route::mixed)),
        12 => Job::new(vector_type(4), vec![route.real()]),
        13 => Job::new(vector_type(3), vec![route.vector(2, Route::real), route.whole()]),
        14 => Job::new(matrix_type(4, 4), route.many(16, Route::real)),
        15 => Job::new(matrix_type(3, 3), route.many(3, |r| r.vector(3, Route::real))),
        16 => Job::new(array_type(8, Type::F32), route.many(8, Route::mixed)),
        17 => Job::untyped(route.many(8, Route::mixed)),
        18 => Job::new(vector_type(3), vec![]),
        _ => {
            let station = struct_type(7, vec![Type::F32, vector_type(3), Type::U32]);
            Job::new(station.into(), vec![route.real(), route.vector(3, Route::single), route.whole()])
        }
    }
}

/// Arrays of one size, not yet calls.
struct Array {
    /// with N for the size
    name: &'static str,
    jobs: Vec<Job>,
    plain: Plain,
}

impl Array {
    fn literals(&self) -> usize {
        self.jobs[0].args.len()
    }

    fn group(&self, entry: &str, unit: &'static str, call: fn(&Job) -> Call, plain: Option<Plain>) -> Group {
        let (n, calls) = (self.literals(), self.jobs.iter().map(call).collect());
        sized(&format!("{entry} {}", self.name), n, n, unit, calls, plain)
    }

    fn build(&self) -> Group {
        self.group("call_ctor", "literal", Job::build, Some(self.plain))
    }

    fn typing(&self) -> Group {
        self.group("type_ctor", "type", Job::typing, None)
    }
}

/// The arguments of an array group's calls.
type Lists = Vec<Vec<Instance>>;

fn arrays(route: &mut Route) -> Vec<Array> {
    let mut lists = |n: usize, one: fn(&mut Route) -> Instance| route.many(LITERALS / n, |r| r.many(n, one));
    let small = SMALL_SIZES.map(|n| lists(n, Route::mixed));
    let mixed = SIZES.map(|n| lists(n, Route::mixed));
    let real = SIZES.map(|n| lists(n, Route::real));
    [
        typed("array of N mixed literals", &small),
        typed("array of N mixed literals", &mixed),
        untyped("Qa of N mixed literals", mixed),
        typed("array of N AbstractFloat", &real),
        untyped("Qa of N AbstractFloat", real),
    ]
    .into_iter()
    .flatten()
    .collect()
}

fn typed(name: &'static str, sizes: &[Lists]) -> Vec<Array> {
    let job = |list: &Vec<Instance>| Job::new(array_type(list.len(), Type::F32), list.clone());
    let array = |lists: &Lists| Array { name, jobs: lists.iter().map(job).collect(), plain: Plain::ARRAY };
    sizes.iter().map(array).collect()
}

fn untyped(name: &'static str, sizes: [Lists; 3]) -> Vec<Array> {
    let array = |lists: Lists| Array { name, jobs: lists.into_iter().map(Job::untyped).collect(), plain: Plain::QA };
    sizes.into_iter().map(array).collect()
}

/// `convert_to` takes one value, and the elements of an array value are of one type, so there are no mixed literals here.
fn conversions(route: &mut Route) -> Vec<Group> {
    let mut all = Vec::new();
    for n in SIZES {
        let calls = route.many(LITERALS / n, |r| conversion(r.many(n, Route::real), Type::F32));
        all.push(sized("convert_to array of N AbstractFloat", n, n, "literal", calls, Some(Plain::CONVERT)));
    }
    for n in SIZES {
        let calls =
            route.many(LITERALS / n, |r| conversion(r.many(n / 3, |r| r.vector(3, Route::real)), vector_type(3)));
        all.push(sized("convert_to array of N vec3", n / 3, n, "literal", calls, Some(Plain::CONVERT)));
    }
    all
}

fn conversion(elements: Vec<Instance>, element: Type) -> Call {
    let target = array_type(elements.len(), element);
    Call::convert(&target, &ArrayInstance::new(elements, false).into())
}
