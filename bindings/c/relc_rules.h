/* relc_rules.h: of each rule of acceptance and of plans what it asks, what the item or line that a refusal names
 * does, and what to try. Made by checks/refusals.py. */
#ifndef RELC_RULES_H
#define RELC_RULES_H

static const struct relc_rule {
    char name[3];
    const char *text;
} relc_rules[] = {
    {"S1",
     "A text begins with the line `relc 1` or `relc 2`, and its workload with `work` and the number of threads. "
     "This line is no such header; or there is no line where it should stand. "
     "Write the header first. `relc 2` has updates, queries with ranges, and up to 32 columns."},
    {"S2",
     "A line has one of the forms of the language, its bytes are printable ASCII, spaces and tabs, and a quoted word is closed, with nothing behind it; a specification has no quoted word. "
     "This line doesn't: its first word is no section's, a word is missing, one too many or of another kind, a quoted word stands where none may or isn't closed, or a byte is another one. "
     "Compare the line with the form of its first word."},
    {"S3",
     "A name is 1 to 16 of a-z, 0-9 and _, begins with a letter, and is one item's of its kind; a list of columns, but for a query's outputs, names each once; a range column isn't one of the pattern. "
     "This line's name is no such name, or another item's of its kind; or a list of it names a column twice; or a range column stands in the pattern. "
     "Rename the item, or leave out the column that stands twice."},
    {"S4",
     "A column, a node, an edge and a class are named after the line that declares them. "
     "This line names one that no line before it declares. "
     "Correct the spelling, or declare it above. A `:` parts a pattern from ranges in `relc 2` alone."},
    {"S5",
     "A number of stripes is at most 65,535; of a workload the threads are 1 to 8, a call's thread is below their number, a value is below 2^64, a text has at most 64 bytes, and a group 2 to 16 calls. "
     "This line has a number or a text out of its range. "
     "Take a number within the range, or a shorter text. All classes together have at most 256 stripes (P6)."},
    {"S6",
     "There are at most 16 columns (32 in `relc 2`), 32 dependencies, 16 nodes, 24 edges, 16 classes, 24 placements and 32 operations; of a workload 64 rounds and 20,000 calls; and 32 shapes. "
     "This line is one more. "
     "Take `relc 2` for more columns; else make two relations of it, or two runs."},
    {"S7",
     "The sections come in the order col, fd, node, edge, lock, place, op, `end`, and there is a column and a node; of a workload a call comes behind a `round`. "
     "This line comes behind a line of a later section, or is a second header, or ends a specification that has no column or no node; or it is a call before the first `round`. "
     "Move the line to its section; leave out a second header; declare a column and a node before `end`; write `round` before the first call."},
    {"S8",
     "A specification and a workload end with the line `end`, and so do plans that a store is opened with; nothing comes behind the last one. Behind plans between a specification and a workload stands the line `work`. "
     "The lines run out before `end`, or before `work`; or this line comes behind the last `end`. "
     "Write `end`; a store that a program opens takes the specification alone, without a workload, and plans alone."},
    {"A1",
     "The first node, the root, binds no column, no edge enters it and one leaves it; an edge enters each other node. "
     "This node is a root that breaks that, or another node that no edge enters. "
     "Let the root bind nothing, draw an edge from it and none to it; draw an edge to any other node, or leave that out."},
    {"A2",
     "No node lies on a circle of edges. "
     "This node does. "
     "Turn an edge of the circle around, or leave it out: an edge leads from what is known to what is found."},
    {"A3",
     "The key of an edge has no column of its source, and its target binds the columns of source and key. "
     "This edge's key has a column of its source, or its target lacks a column of the source or of the key. "
     "Leave the source's columns out of the key, and write those of source and key at the target's node."},
    {"A4",
     "The columns of an edge's source and key determine those of its target. "
     "This edge's target binds a column that they don't determine: two rows would have one place. "
     "Add the column to the key, or state the dependency if it holds."},
    {"A5",
     "An edge without a key is a singleton, and in a singleton the source's columns determine the key. "
     "This edge has no key and is no singleton, or is a singleton whose key they don't determine: one row has no room for several. "
     "Without a key write singleton, or give it a key; with one take hash, ordered or list, or state the dependency if it holds."},
    {"A6",
     "An edge begins at the root or at the target of an edge written before it; and the columns that its target has in common with those visited so far determine the visited ones, or the target's. "
     "This edge begins at a node that isn't reached yet, or joins rows that don't belong together. "
     "Write the edges in the order in which they are followed; lead both paths to a node over a key of the relation."},
    {"A7",
     "Every column is bound at the target of an edge. "
     "This column is bound at none: its values would be lost. "
     "Bind it at a node, as by a singleton edge from the key's node."},
    {"P1",
     "Each edge is placed on a class of locks by one line. "
     "This edge is placed by none, or by several. "
     "Write one `place` line for it."},
    {"P2",
     "Source and key of an edge have all columns of its class, so that each row names its own stripe. "
     "This edge's class is over a column that neither its source nor its key has. "
     "Place the edge on a class over columns that it has, or stripe the class by fewer."},
    {"P3",
     "Along a path the classes don't fall: the class of an edge isn't written before that of an edge that ends where it begins. "
     "This edge's class is written before that of an edge above it. "
     "Write the `lock` lines in the order of the paths, or place the edges so."},
    {"P4",
     "A class without columns has one stripe, since nothing could choose another. "
     "This class has no columns and more stripes, or none. "
     "Write 1, or give it columns."},
    {"P5",
     "Where the source of an edge hasn't all columns of its class, the edge is a hash: its rows lie on several stripes, and only a hash has no order among them. "
     "This edge is ordered, a list or a singleton, and its class is over a column of its key. "
     "Make it a hash, or place it on a class over columns of its source; a class without columns has one stripe."},
    {"P6",
     "A class has a stripe, and all classes up to it have at most 256 together. "
     "This class has none, or with it there are more. "
     "Write 1 at least; where they are too many, take fewer here or in a class above."},
    {"O1",
     "The pattern of an insert has a column: by it a tuple is sought before one is added. "
     "This insert's pattern is empty. "
     "Give it the columns of a key."},
    {"O2",
     "The pattern of a remove or an update determines all columns, so that one tuple at most matches. "
     "This operation's pattern doesn't. "
     "Give it the columns of a key, or state the dependency if it holds."},
    {"O3",
     "A query has outputs, each of which is named once. "
     "This query has none, or names one twice. "
     "Name the columns of its rows behind `->`."},
    {"H1",
     "A written plan begins with the line `plan` and the name of one operation, which has no other plan. "
     "This line names no operation, or more than one word, or an operation that has a plan above. "
     "Correct the name, as `op` lines have it, and write one plan for each operation; one that has none is planned."},
    {"H2",
     "A line of a written plan has one of the forms of a statement, as `relc plan` prints them, without quotes; behind the last plan stands the line `work`, or `end` where plans stand alone. "
     "This line has none: its first word is no statement's, a word is missing, one too many or of another kind, or it stands before the first `plan`. "
     "Compare the line with the form of its first word; begin with plans that were printed."},
    {"H3",
     "A statement names classes, edges and columns of the specification, a column once, and the number of a dependency, counted from 1. In a program they are those of the specification that the store has, in which singletons are inlined. "
     "This line names one that isn't there, a column twice, or a dependency with the number 0 or above the last. "
     "Correct the spelling; in a program take the names from the plans that the store prints, since an edge that is inlined isn't there."},
    {"H4",
     "A written plan has at most 256 statements. "
     "This line is the 257th. "
     "Read each edge once, and release each class once; a plan with that many statements reads more than it needs."},
    {"K1",
     "A plan has two phases: locks and reads, then what answers (`emit` of a query, `apply` of a remove; an insert and an update have probes and checks before theirs), then `commit`, then one `release` of each locked class. A query locks shared, or not; the others don't. "
     "This statement stands in another place than the kind of its operation has for it; or, where its number is that of all statements, the plan ends too early. "
     "Put it where a plan that is printed has it: nothing is released before `commit`, and nothing locked or read after the answer."},
    {"K2",
     "A plan locks classes in the order in which the specification has them, each once. "
     "This lock's class isn't behind every class that was locked before it. "
     "Move the lock in front of that of the later class, or exchange the `lock` lines of the specification."},
    {"K3",
     "A lock is `keyed` where the columns of its class are known by then, from the pattern, a probe or what was read; an edge is read under a lock of its class, one that is keyed by what is sought. "
     "This lock is keyed and a column of its class isn't known yet; or this read's class isn't locked, or is locked by other columns than the probe has. "
     "Lock `all` of the class, or lock it behind the read that finds the column; lock each class before its edges are read."},
    {"K4",
     "What changes is locked: at `apply` every class that has an edge, and in an update all of a class whose columns the pattern hasn't. "
     "At this `apply` a class isn't locked, or an update's is keyed by a column that may change. "
     "Lock each class that has an edge before `apply`; in an update lock `all` of one that isn't keyed by the pattern."},
    {"K5",
     "An edge is read from the root or from a node that was reached; a `lookup` knows all columns of the edge's key; and what the edge's target has in common with what was read determines the one or the other. "
     "This read begins at a node that wasn't reached, looks up by a column that isn't known, or joins rows that don't belong together. "
     "Read the edges from the root down, as they are written; `scan` where a column of the key isn't known."},
    {"K6",
     "What answers has been found: at `emit` the pattern and all outputs are read, at a remove's `apply` all columns, and at `absent`, `found` and `check` the columns that they speak of, behind a probe of them. "
     "At this statement a column is missing that it speaks of, or the last probe was by others. "
     "Read the edges that bind the missing columns first; probe by the pattern before `absent` or `found`, and by the left side of the dependency before its `check`."},
    {"K7",
     "An insert tests that no tuple is there (`absent`), an update that one is (`found`), and behind that each dependency that could break, in the order of their numbers. "
     "This `check` comes before `absent` or `found`, or behind one with a larger number; or this `apply` comes before a test that it needs. "
     "Write `absent` or `found` first, then a `check` for each dependency whose left side doesn't hold the whole pattern."},
    {"W4",
     "The operation that a call or a shape brings keeps O1, O2 and O3. "
     "The operation of this line breaks one of them: an insert has no column in its pattern, the pattern of a remove or an update doesn't determine all columns, or a query has no output or one twice. "
     "Name a key's columns behind - and ! (`remove` and `update`), a column behind + (`insert`), and each output once behind ->."},
};

#endif
