;; Two generators of numbers, whose states are globals.
(module
  (global $linear (mut i64) (i64.const 0x853c_49e6_748f_ea9b))
  (global $shift (mut i32) (i32.const +2147483647))
  (global $multiplier i64 (i64.const 6364136223846793005))
  (func $draw_linear (export "linear") (result i32) (local $old i64)
    (global.set $linear
      (i64.add
        (i64.mul (local.tee $old (global.get $linear)) (global.get $multiplier))
        (i64.const 1442695040888963407)))
    (i32.rotr
      (i32.wrap_i64 (i64.shr_u (i64.xor (i64.shr_u (local.get $old) (i64.const 18)) (local.get $old)) (i64.const 27)))
      (i32.wrap_i64 (i64.shr_u (local.get $old) (i64.const 59)))))
  (func $draw_shift (export "shift") (result i32)
    global.get $shift
    global.get $shift i32.const 13 i32.shl i32.xor global.set $shift
    global.get $shift
    global.get $shift i32.const 17 i32.shr_u i32.xor global.set $shift
    global.get $shift
    global.get $shift i32.const 5 i32.shl i32.xor global.set $shift
    global.get $shift)
  (func (export "between") (param $low i32) (param $high i32) (result i32)
    (select
      (local.get $low)
      (i32.add (local.get $low)
        (i32.rem_u (call $draw_linear) (i32.sub (local.get $high) (local.get $low))))
      (i32.le_s (local.get $high) (local.get $low))))
  (export "state" (global $linear)))
