//! Document 01's examples E1 to E11 as loads; E10 is E2 with a limit.

use crate::build::plan_load::PlanLoad;

/// Every example with its name.
pub fn all() -> [(&'static str, PlanLoad); 10] {
    [
        ("e1", e1()),
        ("e2", e2()),
        ("e3", e3()),
        ("e4", e4()),
        ("e5", e5()),
        ("e6", e6_or_e7(4)),
        ("e7", e6_or_e7(5)),
        ("e8", e8()),
        ("e9", e9()),
        ("e11", e11()),
    ]
}

pub fn e1() -> PlanLoad {
    PlanLoad::new(1, 0)
}

pub fn e2() -> PlanLoad {
    PlanLoad::new(2, 2)
        .block(0, 0, &[1, 3])
        .block(1, 0, &[3, 1])
        .block(0, 0, &[1, 3])
        .block(1, 0, &[3, 1])
}

pub fn e3() -> PlanLoad {
    PlanLoad::new(2, 1)
        .block(0, 0, &[1, 10])
        .block(0, 0, &[1, 10])
        .block(0, 0, &[1, 10])
}

pub fn e4() -> PlanLoad {
    let mut load = PlanLoad::new(2, 2);
    for flow in [0, 1, 0, 1, 0, 1] {
        load.push(flow, 0, &[1, 10]);
    }
    load
}

pub fn e5() -> PlanLoad {
    let mut load = PlanLoad::new(1, 2);
    for (flow, time) in [(0, 2), (0, 1), (0, 1), (0, 5), (1, 5), (1, 5)] {
        load.push(flow, 0, &[time]);
    }
    load
}

/// E6 with 4 ticks of arrival, E7 with 5.
pub fn e6_or_e7(arrival: u32) -> PlanLoad {
    PlanLoad::new(1, 1)
        .block(0, 0, &[4])
        .block(0, arrival, &[4])
}

pub fn e8() -> PlanLoad {
    PlanLoad::new(1, 3)
        .block(0, 0, &[3])
        .block(0, 0, &[3])
        .block(1, 0, &[2])
        .block(2, 1, &[1])
}

pub fn e9() -> PlanLoad {
    PlanLoad::new(2, 1).block(0, 0, &[3, 3])
}

pub fn e11() -> PlanLoad {
    PlanLoad::new(2, 2)
        .block(1, 0, &[1, 10])
        .block(0, 0, &[1, 10])
        .block(0, 4, &[1, 1])
}
