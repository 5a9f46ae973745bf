//! Makes inputs of calls: a plan of tables, keys and items that both ends take; alterations of the plan; its bytes,
//! with longer forms of lengths; damage to the bytes.
pub mod alter;
pub mod bytes;
pub mod feed;
pub mod job;
pub mod key;
pub mod measured;
pub mod nested;
pub mod plan;
pub mod room;
pub mod set;
pub mod table;
pub mod wire;

use crate::call::Call;
use crate::random::Random;
use plan::Plan;

/// A call from one group byte to another: a third of them as planned, the others with an altered plan, damaged bytes or
/// both, or with damaged triplets where elements measure themselves.
pub fn call(random: &mut Random, source: u8, target: u8) -> Call {
    let mut plan = Plan::fitting(random, source, target);
    let sort = random.below(6);
    if sort == 0 || sort == 1 {
        alter::alter(random, &mut plan);
    }
    if sort == 3 {
        plan.damage_measured(random);
    }
    let longer = random.one_in(3);
    let mut call = wire::call(random, &plan, longer);
    if sort == 1 || sort == 2 {
        bytes::damage_call(random, &mut call);
    }
    call
}
