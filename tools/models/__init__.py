"""Small models of what witcall does, written from the rules alone: docs/FORMATS.md, CanonicalABI.md and Binary.md. They
give the answers of stored runs and of rows, and nothing in them comes from the program's sources.

| module | models |
|---|---|
| `tokens`, `reading`, `wit` | texts with the first fault of each, and as trees |
| `component`, `shape` | binaries with the first fault of each, and which of them have the layout of packages |
| `names` | which names stand in one scope, and which aren't there |
| `sets` | sets of packages: what refuses them, their tables, what `show` and `layout` print |
| `printing`, `binary` | canonical texts; component type binaries, both ways |
| `abi` | closed types: layouts, flat kinds, core signatures |
| `memory` | memories with their allocators |
| `crossing` | values from one place to another |
| `calls` | calls by core values |
| `json_values` | values as JSON |
| `sessions` | typed calls, and what is placed, read and released |
| `heads` | what one value has of its own |
| `hosts` | values in a memory that a host keeps |
| `vectors` | which of these answers a row of `crates/vectors`; the program `vectors` beside them |
| `jobs`, `layouts`, `rows`, `text_rows` | lines that ask, and lines that answer |
| `atoms`, `memory_rows` | the same of numbers, names, command lines and memories |
| `random_calls` | random calls, as rows of `crates/vectors` |
| `stored` | the files in which these are kept |
| `damaged` | the program beside the models, on inputs that are cut or changed |

One module serves all that need a rule. What finds faults is that the models and the program were written apart; two
models of one rule would have one author and would err alike.
"""
