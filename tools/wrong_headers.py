#!/usr/bin/env python3
"""Makes copies of include/witcall_call.h with one fault each, and tests that examples/c/many_blocks.c finds each.

usage: tools/wrong_headers.py [--only NAME] FOLDER      FOLDER has the library, as tools/build.sh makes it

A fault is made by replacing texts of the header, each of which has to be there once (FAULTS). The test passes over the
header as it is. Over each copy it has to fail, or a sanitizer has to stop it, or it doesn't end. It is compiled by the
C compiler (CC) with the address and undefined behaviour sanitizers, and makes halves of up to 36 blocks. The script
prints each fault that is not found, and how many there are; the exit status is 1 then.
"""
import os
import pathlib
import subprocess
import sys
import tempfile
from concurrent.futures import ThreadPoolExecutor

from repository import ROOT, parser

HEADER = ROOT / "include" / "witcall_call.h"
TEST = ROOT / "examples" / "c" / "many_blocks.c"
FLAGS = ["-std=c11", "-O0", "-w", "-fsanitize=address,undefined", "-fno-sanitize-recover=all"]
MOST_BLOCKS = 36
SECONDS = 120

# parts of the header
BODY_TRAP = "status_(WITCALL_TRAP, 7, WITCALL_BODY) :"
SERVER_TRAP = "&result) != 0)\n        status = witcall_status_(WITCALL_TRAP, 7, WITCALL_BODY);"
POST = "body->post_return(body->context, answer->values, answer->count)"
NO_POST = "left.code != WITCALL_DONE || !body->post_return ||"
LEAVE = "    status = witcall_leave_(&call, told);\n"
BACK = "    if (status.code == WITCALL_DONE && status.count > 0 && back)\n        *back = told[0];\n"
FINISH = "    return witcall_finish_(link->body, &answer, status);\n"
READ = "        status = witcall_finish_(called->body, &answer, witcall_read_(called, &answer, result));\n"
FORGET = "    if (status.code != WITCALL_DONE)\n        result->len = 0;\n    return status;\n"
REFUSED = "        if (at == WITCALL_STOPPED)\n            break;\n"
COUNTED = "        blocks->count++;\n"
FEW = "if (asked.code != WITCALL_DONE || room <= WITCALL_FEW_BLOCKS)"
LACKING = "if (!blocks->requests || !blocks->blocks)\n        return witcall_out_of_memory_();"
REALLOC = "guest->realloc(guest->context, 0, 0, wanted.align, wanted.size)"
LEFT = "blocks.blocks, blocks.count, told, WITCALL_MAX_VALUES);\n    }\n    witcall_free_(&blocks);\n"
LEFT_BY_LINK = f"                               caller, caller_len, {LEFT}"
LENGTHS = "        size_t caller_len = 0, callee_len = 0;\n"
CALLER = "uint8_t *caller = link->caller->memory(link->caller->context, &caller_len);\n"
CALLEE = "uint8_t *callee = link->callee->memory(link->callee->context, &callee_len);\n"
ASK_ENTER = "    witcall_status status = witcall_grant_(&blocks, link->callee, witcall_ask_enter_, call);\n"
ASK_LEAVE = "    witcall_status status = witcall_grant_(&blocks, link->caller, witcall_ask_leave_, call);\n"
ASK_FILL = "    witcall_status status = witcall_grant_(&blocks, guest, witcall_ask_arguments_, put);\n"
ASK_RESULT = "    status = witcall_grant_(&blocks, served->guest, witcall_ask_result_, &put);\n"
GUEST_BYTES = "size_t len = 0;\n{0}uint8_t *bytes = guest->memory(guest->context, &len);\n"
SERVED_BYTES = "size_t len = 0;\n{0}uint8_t *bytes = served->guest->memory(served->guest->context, &len);\n"
ANSWER = "        status = witcall_answer_json_(&call, &result, told);\n"


def early(before, taken, there):
    """What takes a memory before its allocator runs, and not after: `taken` is what takes it, within `there`."""
    lines = taken.format("    ")
    kept = there.replace(f"        {taken.format('        ')}", "")
    return [(before, f"    {lines}{before}"), (there, kept)]


# of each fault its name, and which texts are replaced by which
FAULTS = {
    # post-return
    "post-return is not called": [(NO_POST, NO_POST.replace("!body", "!!body"))],
    "post-return is called twice": [(NO_POST, f"{NO_POST} {POST} != 0 ||")],
    "post-return is called before the answer of a link is read": [
        (LEAVE, f"    status = witcall_finish_(link->body, &answer, status);\n    if (!status.code)\n    {LEAVE}"),
        (FINISH, "    return status;\n")],
    "post-return is called before a result as JSON is read": [
        (READ, "        status = witcall_finish_(called->body, &answer, status);\n"
               "    if (status.code == WITCALL_DONE)\n        status = witcall_read_(called, &answer, result);\n")],
    "post-return is called after a half that failed": [(NO_POST, "!body->post_return ||")],
    # the order of steps and tests
    "the callee is asked before the arguments are tested": [
        (ASK_ENTER, f"    link->callee->realloc(link->callee->context, 0, 0, 1, 0);\n{ASK_ENTER}")],
    "the caller is asked before the answer is tested": [
        (ASK_LEAVE, f"    link->caller->realloc(link->caller->context, 0, 0, 1, 0);\n{ASK_LEAVE}")],
    "a body runs though the arguments are none": [
        ("    if (status.code == WITCALL_DONE)\n        status = witcall_run_(link->body",
         "    if (status.number != 66)\n        status = witcall_run_(link->body")],
    "a function of the host runs though the arguments are none": [
        ("if (status.code == WITCALL_DONE && server->serve", "if (server->serve")],
    "a block is counted before its address is tested": [(REFUSED, ""), (COUNTED, COUNTED + REFUSED)],
    "a guest is asked on after it refused a block": [(REFUSED, REFUSED.replace("break", "continue"))],
    # traps
    "a trap of a body is told as done": [(BODY_TRAP, "status_(WITCALL_DONE, 0, 0) :")],
    "a trap of a body is told as one of post-return": [(BODY_TRAP, BODY_TRAP.replace("_BODY", "_POST"))],
    "a trap of post-return is told as done": [
        ("return witcall_status_(WITCALL_TRAP, 7, WITCALL_POST);", "return left;")],
    "a function of the host that failed is told as done": [
        (SERVER_TRAP, SERVER_TRAP.replace("WITCALL_TRAP, 7, WITCALL_BODY", "WITCALL_DONE, 0, 0"))],
    # blocks
    "33 blocks are kept in an array of 32": [(FEW, FEW.replace("FEW_BLOCKS", "FEW_BLOCKS + 1"))],
    "32 blocks are kept on the heap": [(FEW, FEW.replace("<=", "<"))],
    "the last of many blocks is not asked for": [("i < asked.count; i++", "i + (i > 31) < asked.count; i++")],
    "there is no room for the last of many blocks": [
        ("(witcall_block *)calloc(room,", "(witcall_block *)calloc(room - 1,")],
    "many blocks are asked for with the room of few": [
        ("asked = ask(half, blocks->requests, room);", "asked = ask(half, blocks->requests, WITCALL_FEW_BLOCKS);")],
    "want of memory for blocks is told as done": [
        (LACKING, LACKING.replace("witcall_out_of_memory_()", "witcall_status_(WITCALL_DONE, 0, 0)"))],
    "blocks are freed twice": [("free(blocks->blocks);", "free(blocks->blocks), free(blocks->blocks);")],
    "blocks are never freed": [("        free(blocks->blocks);\n", "")],
    "requests are never freed": [("        free(blocks->requests);\n", "")],
    "blocks of a second half are never freed": [
        (LEFT_BY_LINK, LEFT_BY_LINK.replace("    witcall_free_(&blocks);\n", ""))],
    "size and alignment of a block are exchanged": [
        (REALLOC, REALLOC.replace("align, wanted.size", "size, wanted.align"))],
    # limits
    "the limit of arguments is a byte more": [("link->callee->limit);", "link->callee->limit + 1);")],
    "the limit of arguments is a byte less": [("link->callee->limit);", "link->callee->limit - 1);")],
    "the limit of arguments is that of the caller": [("link->callee->limit);", "link->caller->limit);")],
    "the limit of a result is a byte more": [("link->caller->limit);", "link->caller->limit + 1);")],
    "the limit of a result is a byte less": [("link->caller->limit);", "link->caller->limit - 1);")],
    "the limit of arguments as JSON is a byte more": [
        ("    put.limit = called->guest->limit;", "    put.limit = called->guest->limit + 1;")],
    "the limit of arguments of the host is a byte more": [
        ("arguments->room, served->guest->limit);", "arguments->room, served->guest->limit + 1);")],
    "the limit of a result as JSON is a byte more": [
        ("result->room, called->guest->limit);", "result->room, called->guest->limit + 1);")],
    "the limit of a result of the host is a byte more": [
        ("    put.limit = served->guest->limit;", "    put.limit = served->guest->limit + 1;")],
    "the limit of an array is a byte more": [("guest.limit = memory->size;", "guest.limit = memory->size + 1;")],
    "the blocks of an array end a byte later": [("size > memory->size - at ||", "size > memory->size - at + 1 ||")],
    # sides
    "blocks of a result are the callee's": [(ASK_LEAVE, ASK_LEAVE.replace("link->caller", "link->callee"))],
    "a result is put into the callee's memory": [
        (f"        {CALLER}        status = witcall_leave(",
         f"        {CALLER.replace('link->caller', 'link->callee')}        status = witcall_leave(")],
    "an answer is read in the caller's memory": [
        ("link->callee->memory(link->callee->context, &len);\n    return witcall_leave_requests",
         "link->caller->memory(link->caller->context, &len);\n    return witcall_leave_requests")],
    "the host's blocks stay after an import": [("    own->top = top;\n", "")],
    # memories that grow
    "the callee's memory is that before its blocks": [
        (ASK_ENTER, f"    size_t callee_len = 0;\n    {CALLEE}{ASK_ENTER}"),
        (f"{LENGTHS}        {CALLER}        {CALLEE}        status = witcall_enter(",
         f"        size_t caller_len = 0;\n        {CALLER}        status = witcall_enter(")],
    "the caller's memory is that before its blocks": [
        (ASK_LEAVE, f"    size_t caller_len = 0;\n    {CALLER}{ASK_LEAVE}"),
        (f"{LENGTHS}        {CALLEE}        {CALLER}        status = witcall_leave(",
         f"        size_t callee_len = 0;\n        {CALLEE}        status = witcall_leave(")],
    "the memory of arguments as JSON is that before its blocks": early(
        ASK_FILL, GUEST_BYTES, f"        {GUEST_BYTES.format('        ')}        status = witcall_fill_json("),
    "the memory of a result as JSON is that before its blocks": early(
        ASK_RESULT, SERVED_BYTES,
        f"        {SERVED_BYTES.format('        ')}        status = witcall_fill_result_json("),
    # texts and values
    "arguments as JSON are never freed": [("    witcall_text_free(&arguments);\n", "")],
    "a result as JSON is freed twice": [
        ("    witcall_text_free(&result);\n", "    free(result.bytes);\n    witcall_text_free(&result);\n")],
    "a result as JSON that has no room is not read again": [
        ("        result->len = status.code == WITCALL_DONE ? status.count : 0;\n        if (!is_short)",
         "        result->len = status.code == WITCALL_DONE ? status.count : 0;\n        if (is_short || !is_short)")],
    "a text of before stays": [
        ("    result->len = 0;\n    status = witcall_fill_(", "    status = witcall_fill_("),
        (FORGET, "    return status;\n")],
    "a result that was read stays after a trap of post-return": [(FORGET, "    return status;\n")],
    "the value of a link is not given back": [(LEAVE + BACK, LEAVE)],
    "the value of a function of the host is not given back": [(ANSWER + BACK, ANSWER)],
}


def wrong_text(text, name):
    """The header with a fault. A text that is not there once ends the script."""
    for old, new in FAULTS[name]:
        if text.count(old) != 1:
            sys.exit(f"tools/wrong_headers.py: {name}: {text.count(old)} times in the header: {old!r}")
        text = text.replace(old, new)
    return text


def passes(folder, library, text):
    """Whether the test passes over a header. One that can't be compiled ends the script."""
    folder.mkdir()
    (folder / HEADER.name).write_text(text)
    program = folder / "test"
    words = [os.environ.get("CC", "cc"), *FLAGS, f"-I{folder}", f"-I{HEADER.parent}", "-o", program, TEST]
    made = subprocess.run([*words, library / "libwitcall_c.a", library / "liblibc_c.a"], capture_output=True, text=True)
    if made.returncode:
        sys.exit(f"tools/wrong_headers.py: {folder.name}:\n{made.stderr}")
    try:
        return subprocess.run([program, str(MOST_BLOCKS)], capture_output=True, timeout=SECONDS).returncode == 0
    except subprocess.TimeoutExpired:
        return False


def main():
    """Tries each fault."""
    options = parser(__doc__)
    options.add_argument("--only", choices=list(FAULTS))
    options.add_argument("folder", type=pathlib.Path)
    words = options.parse_args()
    text, names = HEADER.read_text(), [words.only] if words.only else list(FAULTS)
    headers = [text, *(wrong_text(text, name) for name in names)]
    with tempfile.TemporaryDirectory() as room, ThreadPoolExecutor(len(os.sched_getaffinity(0))) as pool:
        tried = [pool.submit(passes, pathlib.Path(room) / str(number), words.folder, header)
                 for number, header in enumerate(headers)]
        is_right, *missed = [it.result() for it in tried]
    if not is_right:
        print("FAILED: the test fails over the header as it is")
    for name, is_missed in zip(names, missed):
        if is_missed:
            print(f"FAILED: not found: {name}")
    print(f"{len(names)} wrong headers, {sum(missed)} not found")
    sys.exit(1 if sum(missed) or not is_right else 0)


if __name__ == "__main__":
    main()
