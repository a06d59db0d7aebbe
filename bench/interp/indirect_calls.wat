;; Calls through the table: one of four functions, chosen by what the last one gave.
;; It traps unless the number is the one that it should be.
(module
  (memory 32 32)
  (type $step (func (param i32) (result i32)))
  (table 4 funcref)
  (elem (i32.const 0) $odd $even $third $fourth)
  (func $odd (param $x i32) (result i32) (i32.add (i32.mul (local.get $x) (i32.const 3)) (i32.const 1)))
  (func $even (param $x i32) (result i32) (i32.shr_u (local.get $x) (i32.const 1)))
  (func $third (param $x i32) (result i32) (i32.xor (local.get $x) (i32.const 0x55aa)))
  (func $fourth (param $x i32) (result i32) (i32.add (local.get $x) (i32.const 77)))
  (func $run (result i64)
    (local $count i32) (local $x i32) (local $sum i64)
    (local.set $x (i32.const 27))
    (loop $calls
      (local.set $x (call_indirect (type $step) (local.get $x) (i32.and (local.get $x) (i32.const 3))))
      (local.set $sum (i64.add (local.get $sum) (i64.extend_i32_u (local.get $x))))
      (br_if $calls (i32.lt_u (local.tee $count (i32.add (local.get $count) (i32.const 1))) (i32.const 2500000))))
    (local.get $sum))
  (func (export "_start")
    (if (i64.ne (call $run) (i64.const 2936987259372475))
      (then (unreachable)))))
