//! Workloads on diagnostic filters.
use crate::diagnostic_filter::{
    DiagnosticFilter, DiagnosticFilterMap, DiagnosticFilterNode, FilterableTriggeringRule, Severity,
    ShouldConflictOnFullDuplicate, StandardFilterableTriggeringRule,
};
use crate::item::{mixed, sample, span, timed};
use crate::{Arena, Sample};

const RULE: StandardFilterableTriggeringRule = StandardFilterableTriggeringRule::DerivativeUniformity;

/// Adds filters to a map. For half of them, the map already has a filter for the same rule.
pub fn add(size: u32) -> Sample {
    let filters: Vec<_> = (0..size)
        .map(|number| DiagnosticFilter {
            new_severity: Severity::Info,
            triggering_rule: FilterableTriggeringRule::Unknown((number / 2).to_string().into()),
        })
        .collect();
    let mut map = DiagnosticFilterMap::new();
    let ((), time) = timed(|| {
        for (number, filter) in filters.into_iter().enumerate() {
            let duplicates = ShouldConflictOnFullDuplicate::No;
            map.add(filter, span(number as u32), duplicates).unwrap();
        }
    });
    let starts = map.spans().map(|span| span.to_range().unwrap_or(0..0).start as u64);
    sample(size, 0, starts.fold(0, mixed), time)
}

/// Searches through `size` nested filters, of which only the first and outermost one is for the rule.
pub fn search(size: u32) -> Sample {
    let mut nodes = Arena::new();
    let mut parent = None;
    for _ in 0..size {
        let triggering_rule = match parent {
            Some(_) => FilterableTriggeringRule::Unknown("".into()),
            None => FilterableTriggeringRule::Standard(RULE),
        };
        let inner = DiagnosticFilter { new_severity: Severity::Warning, triggering_rule };
        parent = Some(nodes.append(DiagnosticFilterNode { inner, parent }, span(0)));
    }
    let (severity, time) = timed(|| DiagnosticFilterNode::search(parent, &nodes, RULE));
    sample(size, severity as u64, nodes.len() as u64, time)
}
