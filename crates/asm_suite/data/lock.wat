;; A lock of threads over shared memory, a counter behind it, and each width of an atomic access.
(module
  (import "env" "memory" (memory 1 16 shared))
  (func $lock (param $at i32)
    (block $taken
      (loop $again
        (br_if $taken (i32.eqz (i32.atomic.rmw.cmpxchg (local.get $at) (i32.const 0) (i32.const 1))))
        (drop (memory.atomic.wait32 (local.get $at) (i32.const 1) (i64.const -1)))
        (br $again))))
  (func $unlock (param $at i32)
    (i32.atomic.store (local.get $at) (i32.const 0))
    (drop (memory.atomic.notify (local.get $at) (i32.const 1))))
  (func (export "count") (param $times i32)
    loop $more
      (call $lock (i32.const 0))
      (i64.store offset=8 (i32.const 0) (i64.add (i64.load offset=8 (i32.const 0)) (i64.const 1)))
      (call $unlock (i32.const 0))
      (br_if $more (local.tee $times (i32.sub (local.get $times) (i32.const 1))))
    end)
  (func (export "widths") (param $at i32) (result i64)
    (atomic.fence)
    (drop (i32.atomic.rmw8.add_u (local.get $at) (i32.const 1)))
    (drop (i32.atomic.rmw16.sub_u offset=2 (local.get $at) (i32.const 1)))
    (drop (i32.atomic.rmw.xchg align=4 (local.get $at) (i32.const 1)))
    (drop (i64.atomic.rmw8.xor_u (local.get $at) (i64.const 1)))
    (drop (i64.atomic.rmw16.or_u (local.get $at) (i64.const 1)))
    (drop (i64.atomic.rmw32.and_u offset=4 align=4 (local.get $at) (i64.const 1)))
    (drop (i64.atomic.rmw32.cmpxchg_u (local.get $at) (i64.const 1) (i64.const 2)))
    (i64.atomic.store8 (local.get $at) (i64.const 1))
    (memory.atomic.wait64 (local.get $at) (i64.const 0) (i64.const 0))
    drop
    (i64.add (i64.atomic.load (local.get $at)) (i64.atomic.load32_u (local.get $at)))))
