//! Every slice exactly as long as it has to be, or one or two of them one word short.

use common::junk::Junk;
use lists::given::Given;
use lists::rng::Rng;

use crate::call::Slice;
use crate::cases::Case;
use crate::layout::More;
use crate::layout::laid_out;

pub fn case(rng: &mut Rng, junk: &Junk, list: &Given) -> Case {
    let beyond = rng.pick(&[More::Exact, More::Exact, More::Exact, More::All]);
    let mut call = laid_out(rng, junk, list, beyond);
    let short = if beyond == More::All { 0 } else { rng.pick(&[0, 1, 1, 1, 1, 2]) };
    for _ in 0..short {
        let (slice, _) = rng.pick(&Slice::ALL);
        let length = call.length(slice).saturating_sub(1);
        call.lend(slice, length, 0);
    }
    Case::new(call)
}
