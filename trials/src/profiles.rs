//! The named profiles of random runs.

/// What a kind of run is like. Chances are in a thousand.
#[derive(Clone, Copy, Debug)]
pub struct Profile {
    pub name: &'static str,
    /// The least and the largest supply.
    pub supply: (u32, u32),
    /// Calls in a checked run, and how many such runs are made.
    pub calls: u32,
    pub runs: u32,
    /// How often each call is chosen, in call order 1 to 17; then unknown numbers.
    pub weights: [u32; 18],
    /// The chance that a call is careless, and of each single fault in a careless call.
    pub careless: u32,
    pub fault: u32,
    /// The chance that a drawn p1 has its top bit set.
    pub top_bit: u32,
    /// The chance that the caller presents a capability of its own object.
    pub own: u32,
    /// The chance that derive_cap starts from the newest capability, else from a master.
    pub newest: u32,
    pub master: u32,
    /// The chance that rights and masks are not all rights.
    pub restricted: u32,
    /// The chance that a derived capability has a last day near the store's day.
    pub seasons: u32,
    /// The chance that a sum is all there is.
    pub all: u32,
    /// The chance that a call is let through which leaves the running processes without cash.
    pub strand: u32,
    /// The chance that a made object is a process.
    pub process: u32,
    /// Serials are drawn below this number.
    pub serials: u32,
    /// The chance that a script line is malformed.
    pub malformed: u32,
    /// Sizes are drawn up to this number.
    pub size: u32,
}

const MIXED: Profile = Profile {
    name: "mixed",
    supply: (1_000_000, 1_000_000),
    calls: 400,
    runs: 100,
    weights: [60, 60, 60, 40, 90, 40, 20, 60, 60, 20, 50, 30, 60, 50, 15, 40, 20, 5],
    careless: 250,
    fault: 120,
    top_bit: 400,
    own: 100,
    newest: 300,
    master: 100,
    restricted: 375,
    seasons: 250,
    all: 160,
    strand: 3,
    process: 500,
    serials: 50,
    malformed: 0,
    size: 512,
};

/// The named profiles.
pub const PROFILES: [Profile; 15] = [
    MIXED,
    Profile {
        name: "faults",
        strand: 60,
        runs: 200,
        careless: 800,
        fault: 180,
        calls: 300,
        ..MIXED
    },
    Profile {
        name: "pairs",
        strand: 10,
        runs: 150,
        supply: (u32::MAX, u32::MAX),
        weights: [30, 30, 30, 50, 60, 40, 90, 90, 180, 90, 70, 90, 140, 30, 15, 90, 25, 2],
        careless: 600,
        fault: 220,
        ..MIXED
    },
    Profile {
        name: "money",
        runs: 50,
        supply: (u32::MAX, u32::MAX),
        weights: [20, 0, 0, 30, 90, 15, 10, 200, 240, 5, 20, 0, 60, 60, 5, 40, 15, 0],
        ..MIXED
    },
    Profile {
        name: "poor",
        strand: 300,
        runs: 100,
        supply: (0, 300),
        calls: 120,
        weights: [60, 40, 40, 20, 40, 10, 10, 20, 20, 5, 80, 10, 40, 60, 15, 90, 15, 0],
        process: 900,
        ..MIXED
    },
    Profile {
        name: "locks",
        runs: 40,
        weights: [40, 40, 40, 40, 90, 20, 20, 40, 40, 5, 60, 140, 30, 40, 5, 60, 15, 0],
        top_bit: 800,
        process: 700,
        ..MIXED
    },
    Profile {
        name: "self",
        strand: 60,
        runs: 100,
        calls: 150,
        weights: [30, 20, 20, 20, 60, 60, 60, 40, 40, 40, 80, 40, 60, 60, 30, 80, 20, 0],
        own: 800,
        process: 900,
        ..MIXED
    },
    Profile {
        name: "reuse",
        runs: 50,
        weights: [120, 30, 30, 20, 40, 160, 20, 20, 30, 5, 60, 60, 20, 20, 5, 50, 20, 0],
        serials: 6,
        process: 600,
        ..MIXED
    },
    Profile {
        name: "deep",
        runs: 6,
        calls: 760,
        weights: [1, 4, 4, 4, 950, 1, 0, 20, 20, 0, 0, 0, 0, 0, 0, 0, 2, 0],
        own: 1000,
        newest: 1000,
        restricted: 0,
        seasons: 0,
        all: 0,
        careless: 30,
        fault: 120,
        ..MIXED
    },
    Profile {
        name: "wide",
        runs: 6,
        calls: 900,
        weights: [4, 10, 10, 10, 800, 30, 1, 40, 40, 0, 0, 0, 0, 0, 0, 0, 12, 0],
        newest: 20,
        master: 930,
        own: 900,
        restricted: 50,
        seasons: 100,
        all: 0,
        careless: 30,
        fault: 120,
        ..MIXED
    },
    Profile {
        name: "objects",
        runs: 20,
        calls: 350,
        weights: [600, 10, 10, 5, 20, 20, 5, 5, 5, 5, 60, 5, 20, 30, 5, 60, 10, 5],
        serials: 400,
        size: 200,
        careless: 150,
        fault: 160,
        ..MIXED
    },
    Profile {
        name: "blocks",
        runs: 30,
        calls: 200,
        weights: [500, 60, 60, 5, 60, 60, 5, 5, 5, 5, 40, 5, 20, 30, 5, 40, 10, 5],
        size: 8_192,
        careless: 150,
        fault: 160,
        ..MIXED
    },
    Profile {
        name: "capabilities",
        runs: 8,
        supply: (5_000_000, 5_000_000),
        calls: 1_300,
        weights: [60, 5, 5, 5, 900, 3, 1, 5, 5, 1, 60, 1, 5, 40, 1, 50, 14, 1],
        careless: 200,
        fault: 160,
        process: 900,
        size: 64,
        ..MIXED
    },
    Profile {
        name: "seasons",
        runs: 100,
        calls: 300,
        weights: [30, 50, 50, 50, 140, 50, 60, 50, 60, 50, 50, 50, 60, 20, 5, 60, 70, 2],
        seasons: 600,
        careless: 500,
        fault: 160,
        ..MIXED
    },
    Profile { name: "malformed", malformed: 250, runs: 10, careless: 300, fault: 150, ..MIXED },
];

/// The profile of that name.
pub fn profile(name: &str) -> Option<Profile> {
    PROFILES.iter().copied().find(|p| p.name == name)
}
