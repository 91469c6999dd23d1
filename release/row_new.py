"""The skeleton of a new row type: its section of the contract, its entry in the list of types and its file in the model."""
import re

from row_list import ROOT, TYPES, name_of, snake, text_of
from delkuthi.fields import RowType
from delkuthi.library import NEWEST_EDITION

#: What a skeleton has wherever something is to be written.
OPEN = "TODO"
#: The roles that have another name in the model.
ROLES = {"count": "Count(SPAN_LIMIT)", "few": "Count(REPETITION_SPAN_LIMIT)", "coloured_kinds": "Coloureds"}

FILES = """Fill these files, in this order. Each group can be proved or tested before the next.
  docs/CONTRACT.md                                 section 5.{number}, what waits (section 6), questions 7 and 18 (8.7, 8.18), 15.10, 16.9
  python/delkuthi/rowtypes/{snake}.py              texts, an example, reasons, windows, measures
  host/model/src/types/{snake}.rs                  the definition in Rust, from the contract's words; host/model/src/random/one_row.rs
  crates/constraint/specs/Constraint.antt          the constructor
  crates/constraint/specs/Types.antt               its line in type_line, and in the lists by type: lengths, entry_sizes, least_counts,
                                                   most_counts, last_types, type_names
  crates/constraint/specs/Meets.antt               Meets{name} and its line in Meets; Waiting.antt: how many wait
  crates/constraint/proofs/Types/{name}.antt       lawful_{snake}
  crates/table_row/src/types.rt                    the roles of its places and from which n on they are used, and the lists by type again;
                                                   specs/Records.antt: the same, row_read; proofs/ByType.antt: values_of
  crates/CRATE/src/{snake}.rt, specs/{name}.antt   apply with its proof, decide_{snake}, machine_{snake}
  crates/CRATE/proofs/Laws/{name}.antt             exact_{snake}, fits_{snake}
  crates/row                                       its arms in stored.rt, machine_of, every_type_exact, fits
  crates/page/src/lib.rt                           its name
  crates/examples/specs/Vectors.antt               examples as theorems
  host/bench/src/plain/later.rs, drive.rs          the plain rule, a load of its rows alone
  CHANGELOG.md
Then run release/row-types.py --write, which makes tables, makers and lists from the entry in the list."""


def model_fields(row_type):
    """The fields as the model's file declares them, and the two bounds."""
    fields = ", ".join(f"{part.name}: {ROLES.get(part.role, part.role.capitalize())}" for part in row_type.fields)
    bounds = f"    {' <= '.join(row_type.bounds)}\n" if row_type.bounds else ""
    return f"    {row_type.name} {{ {fields} }}\n{bounds}}}\n"


def heading(row_type):
    """The heading of its section in the contract."""
    return f"### 5.{row_type.number} {row_type.name}: {', '.join(map(name_of, row_type.fields))}\n"


def section(row_type):
    return (f"{heading(row_type)}\n**5.{row_type.number}** {OPEN}: what the row asks of a complete set of events.\n\n"
            f"*5.{row_type.number}.1* {OPEN}: silence and the close, with examples that a test executes.\n\n")


def entry(row_type):
    texts = "".join(f'    {name}="{OPEN}",\n' for name in ("says", "means", "asks", "manual", "measures", "each"))
    return f'''"""{row_type.name}: {OPEN}."""
from __future__ import annotations

from typing import TYPE_CHECKING, Iterator

from ..fields import RowType
from ..measure import RowMeasuring
from ..reasons import Case, Reason, Times, Window

if TYPE_CHECKING:
    from ..table import Row


def reason(case: Case) -> Reason | None:
    """{OPEN}: why the row is broken."""
    raise NotImplementedError


def forget(case: Case) -> None:
    """{OPEN}: forgets the events that cannot matter any more."""


def windows(row: Row, times: Times) -> Iterator[Window]:
    """{OPEN}: where its events may come."""
    yield from ()


class Measures(RowMeasuring):
    """{OPEN}: what it measures."""


TYPE = RowType(
    {row_type.number}, "{row_type.name}", "{row_type.form}",
{texts}    reason=reason, forget=forget, windows=windows, measuring=Measures, instance=("{row_type.fields[0].name}", 0), edition={NEWEST_EDITION},
    example=("{OPEN}", "{OPEN}", {{}}),
)
'''


def model(row_type):
    return f"""//! {row_type.name} (§5.{row_type.number}): {OPEN}.

use super::{{RowType, row_type}};
use crate::random::Random;
use crate::random::tables::Draw;
use crate::steps::Events;

row_type! {{
    /// A row of type {row_type.number}.
{model_fields(row_type)}
impl RowType for {row_type.name} {{
    /// {OPEN}: what §5.{row_type.number} asks, by lists of times. If a continuation can need events: `earliest_continuation`, `reach`.
    fn meets(&self, _events: &dyn Events) -> bool {{
        todo!()
    }}

    /// {OPEN}
    fn random(_draw: &mut Draw) -> {row_type.name} {{
        todo!()
    }}

    /// {OPEN}
    fn damage(&mut self, _random: &mut Random) {{
        todo!()
    }}
}}
"""


def write_new(name, form):
    """Writes the skeleton, and says which files are to be filled. A file that is there is left alone."""
    given = dict.fromkeys(("says", "means", "asks", "manual", "measures", "each", "reason", "forget", "windows", "measuring"), "")
    row_type = RowType(len(TYPES) + 1, name, form, instance=("", 0), edition=NEWEST_EDITION, **given)
    if not re.fullmatch(r"[A-Z]\w*", name) or not row_type.fields or name in [one.name for one in TYPES]:
        return "a new type needs a new name with a capital letter, and a form such as '{source:kind} -> {target:kind}, {lower:time} .. {upper:time}'"
    contract = text_of("docs/CONTRACT.md")
    written = {"docs/CONTRACT.md": contract.replace("## 6 What waits\n", f"{section(row_type)}## 6 What waits\n", 1)}
    written |= {f"python/delkuthi/rowtypes/{snake(row_type)}.py": entry(row_type), f"host/model/src/types/{snake(row_type)}.rs": model(row_type)}
    for path, text in written.items():
        if path == "docs/CONTRACT.md" and heading(row_type) not in contract or not text_of(path):
            (ROOT / path).write_text(text, encoding="utf-8")
    return FILES.format(number=row_type.number, name=name, snake=snake(row_type))


def lacking(row_type):
    """What is written by hand for a type and is not there."""
    path = snake(row_type)
    wanted = (("docs/CONTRACT.md", "\n" + heading(row_type)), (f"host/model/src/types/{path}.rs", "\n" + model_fields(row_type)),
              (f"python/delkuthi/rowtypes/{path}.py", "    example=("))
    found = [f"{path}: lacks {' '.join(text.split())}" for path, text in wanted if text not in text_of(path)]
    own = (f"host/model/src/types/{path}.rs", f"python/delkuthi/rowtypes/{path}.py")
    return found + [f"{path}: has a {OPEN}" for path in own if OPEN in text_of(path)]
