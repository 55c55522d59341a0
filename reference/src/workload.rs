//! The workloads that `make` makes (docs/FORMATS.md).
use crate::formats::inputs::Inputs;

/// The source of a workload of so many turns.
pub fn source(turns: u64) -> String {
    format!(
        "proc.bump
  push.1 u32wrapping_add
end
begin
  push.0
  push.{turns}
  dup.0 neq.0
  while.true
    dup.0 movup.2 u32wrapping_add
    adv_push.1 u32checked_xor
    call.bump
    dup.0 is_odd
    if.true
      push.1 u32checked_xor
    else
      push.2 u32checked_xor
    end
    dup.0 mem_store.7
    padw padw padw hperm dropw dropw dropw
    swap sub.1
    dup.0 neq.0
  end
  drop
end
"
    )
}

/// Its inputs: the squares of the numbers from 1 on as advice.
pub fn inputs(turns: u64) -> Inputs {
    Inputs { stack: Vec::new(), advice: (1..=turns).map(|number| number * number).collect() }
}
