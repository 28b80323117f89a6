;; A guest that hands what it is called with to its imports, and gives what these answer. This makes relay.wasm of it:
;;
;;   wat2wasm relay.wat -o core.wasm && wit-explain embed core.wasm --world relay -o relay.wasm relay.wit
(module
  (import "demo:relay/host@1.0.0" "same" (func $same (param i32 i32)))
  (import "demo:relay/host@1.0.0" "next" (func $next (param i32 i32 i64 i32)))
  (import "demo:relay/host@1.0.0" "join" (func $join (param i32 i32 i32)))
  (import "demo:relay/host@1.0.0" "note" (func $note (param i32 i32)))
  (import "demo:relay/host@1.0.0" "now" (func $now (result i64)))
  (import "$root" "ask" (func $ask (param i32 i32)))

  ;; Below 1024 are the return areas, and above it the blocks.
  (memory (export "memory") 1)
  (global $area i32 (i32.const 64))
  (global $top (mut i32) (i32.const 1024))
  (global $posts (mut i32) (i32.const 0))

  (func (export "demo:relay/guest@1.0.0#same") (param i32) (result i32)
    (call $same (local.get 0) (global.get $area))
    (global.get $area))
  (func (export "demo:relay/guest@1.0.0#next") (param i32 i32 i64) (result i32)
    (call $next (local.get 0) (local.get 1) (local.get 2) (global.get $area))
    (global.get $area))
  (func (export "demo:relay/guest@1.0.0#join") (param i32 i32) (result i32)
    (call $join (local.get 0) (local.get 1) (global.get $area))
    (global.get $area))
  (func (export "demo:relay/guest@1.0.0#note") (param i32 i32)
    ;; the word `trap`
    (if (i32.and (i32.eq (local.get 1) (i32.const 4)) (i32.eq (i32.load (local.get 0)) (i32.const 0x70617274)))
      (then unreachable))
    (call $note (local.get 0) (local.get 1)))
  (func (export "demo:relay/guest@1.0.0#now") (result i64)
    (call $now))
  (func (export "tell") (param i32) (result i32)
    (call $ask (local.get 0) (global.get $area))
    (global.get $area))

  ;; The post-return of `join`: `posts` says how often it ran.
  (func (export "cabi_post_demo:relay/guest@1.0.0#join") (param i32)
    (global.set $posts (i32.add (global.get $posts) (i32.const 1))))
  (func (export "posts") (result i32)
    (global.get $posts))

  ;; Each block is above all earlier ones. The memory grows by as many pages as it needs.
  (func (export "cabi_realloc") (param $old i32) (param $old_size i32) (param $align i32) (param $size i32) (result i32)
    (local $at i32) (local $over i32)
    (local.set $at
      (i32.and
        (i32.sub (i32.add (global.get $top) (local.get $align)) (i32.const 1))
        (i32.sub (i32.const 0) (local.get $align))))
    (global.set $top (i32.add (local.get $at) (local.get $size)))
    (local.set $over (i32.sub (global.get $top) (i32.shl (memory.size) (i32.const 16))))
    (if (i32.gt_s (local.get $over) (i32.const 0))
      (then
        (if (i32.eq (i32.const -1)
              (memory.grow (i32.shr_u (i32.add (local.get $over) (i32.const 65535)) (i32.const 16))))
          (then unreachable))))
    (local.get $at)))
