;; Loops over memory: 1 MiB of words is filled and summed, again and again.
;; It traps unless the number is the one that it should be.
(module
  (memory 32 32)
  (func $run (result i64)
    (local $round i32) (local $at i32) (local $sum i64)
    (loop $rounds
      (local.set $at (i32.const 0))
      (loop $fill
        (i32.store offset=1024 (local.get $at) (i32.add (local.get $at) (local.get $round)))
        (br_if $fill (i32.lt_u (local.tee $at (i32.add (local.get $at) (i32.const 4))) (i32.const 1048576))))
      (local.set $at (i32.const 0))
      (loop $read
        (local.set $sum (i64.add (local.get $sum) (i64.load32_u offset=1024 (local.get $at))))
        (br_if $read (i32.lt_u (local.tee $at (i32.add (local.get $at) (i32.const 4))) (i32.const 1048576))))
      (br_if $rounds (i32.lt_u (local.tee $round (i32.add (local.get $round) (i32.const 1))) (i32.const 10))))
    (local.get $sum))
  (func (export "_start")
    (if (i64.ne (call $run) (i64.const 1374396088320))
      (then (unreachable)))))
