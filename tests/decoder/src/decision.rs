//! The forwarding and arrival decisions (Read's refusals, then 14 to 16).

use crate::attribute::{Values, DELIVER_YES, FORWARD_IF_SUPPORTED, UNRECOGNISED};
use crate::layout::Layout;
use crate::refusal::Refusal;
use crate::sheet::Sheet;
use crate::trace::read;

/// Whether an arrived trace is put to its queue.
#[derive(Clone, Copy, Debug, PartialEq, Eq)]
pub enum Arrival {
    Put,
    Withhold,
}

/// Whether the trace goes on to a remote queue manager that supports
/// trace-route messaging or doesn't: `Ok` is "forward".
pub fn forwarding(
    buffer: &[u8],
    length: usize,
    layout: Layout,
    sheet: &Sheet,
    supporting: bool,
) -> Result<(), Refusal> {
    let contents = read(buffer, length, layout, sheet)?;
    decide(&contents.values, supporting)
}

/// What happens to the trace at its destination.
pub fn arrival(
    buffer: &[u8],
    length: usize,
    layout: Layout,
    sheet: &Sheet,
) -> Result<Arrival, Refusal> {
    let deliver = read(buffer, length, layout, sheet)?.values.deliver;
    if deliver & UNRECOGNISED != 0 {
        return Err(Refusal::whole(14));
    }
    Ok(if deliver & DELIVER_YES != 0 {
        Arrival::Put
    } else {
        Arrival::Withhold
    })
}

fn decide(values: &Values, supporting: bool) -> Result<(), Refusal> {
    if !supporting {
        if values.deliver & UNRECOGNISED != 0 {
            return Err(Refusal::whole(14));
        }
        // Deliver yes decides here; Forward isn't looked at any more.
        if values.deliver & DELIVER_YES != 0 {
            return Ok(());
        }
    }
    if values.forward & UNRECOGNISED != 0 {
        return Err(Refusal::whole(15));
    }
    // "If supported" means that supporting managers get the trace.
    if !supporting && values.forward & FORWARD_IF_SUPPORTED != 0 {
        return Err(Refusal::whole(16));
    }
    Ok(())
}
