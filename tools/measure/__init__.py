"""Measures programs: what inputs cost them, how that grows, and what they do with little memory or with damaged inputs.

| module | has |
|---|---|
| `harness` | runs, what they cost, how costs grow, and the memory that is counted, limited or refused |
| `texts`, `binaries` | the inputs, by their shape and size |
| `times` | how times grow: tables, sets of packages, JSON, reading, names that collide |
| `memory` | the most memory of opening and of calls, little memory, the largest request |
| `refused` | allocations that are refused in turn |
| `amplification` | what a byte takes in calls of the library: memory and instructions, and how they grow |
| `refused_calls` | requests that calls of the library make, refused in turn |
| `changed` | inputs that are cut and changed |
"""
