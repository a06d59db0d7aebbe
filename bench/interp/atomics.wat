;; Atomic accesses to a shared memory: additions, exchanges, comparisons with exchange and loads.
;; It traps unless the number is the one that it should be.
(module
  (memory 32 32 shared)
  (func $run (result i64)
    (local $count i32) (local $sum i64)
    (loop $turns
      (drop (i32.atomic.rmw.add (i32.const 1024) (local.get $count)))
      (local.set $sum
        (i64.add (local.get $sum) (i64.atomic.rmw.xchg (i32.const 1032) (i64.extend_i32_u (local.get $count)))))
      (drop
        (i32.atomic.rmw.cmpxchg (i32.const 1040) (i32.atomic.load (i32.const 1040)) (local.get $count)))
      (i32.atomic.store8 (i32.const 1048) (local.get $count))
      (local.set $sum (i64.xor (local.get $sum) (i64.atomic.load (i32.const 1024))))
      (br_if $turns (i32.lt_u (local.tee $count (i32.add (local.get $count) (i32.const 1))) (i32.const 1500000))))
    (local.get $sum))
  (func (export "_start")
    (if (i64.ne (call $run) (i64.const 1198975282913))
      (then (unreachable)))))
