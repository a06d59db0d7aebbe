;; Operations by their number: through a table of functions, and by a table of branches.
(module
  (type $binary (func (param i64 i64) (result i64)))
  (table $operations 0x6 0x6 funcref)
  (elem (i32.const 0) $add $sub $mul)
  (elem (i32.const 3) $div $rem 5)

  (func $add (type $binary) (i64.add (local.get 0) (local.get 1)))
  (func $sub (type $binary) (i64.sub (local.get 0) (local.get 1)))
  (func $mul (type $binary) (i64.mul (local.get 0) (local.get 1)))
  (func $div (type $binary) (i64.div_s (local.get 0) (local.get 1)))
  (func $rem (param $a i64) (param $b i64) (result i64) (i64.rem_u (local.get $a) (local.get $b)))
  (func (param i64 i64) (result i64) local.get 0 local.get 1 i64.rotl)

  (func (export "by_table") (param $number i32) (param $a i64) (param $b i64) (result i64)
    (call_indirect (type $binary) (local.get $a) (local.get $b) (local.get $number)))

  (func (export "by_inline_type") (param $number i32) (result i64)
    (call_indirect (param i64) (param i64) (result i64) (i64.const 7) (i64.const 0x7) (local.get $number)))

  (func (export "by_branch") (param $number i32) (param $a i64) (param $b i64) (result i64)
    (block $none
      (block $multiply
        (block $subtract
          (block $addition
            (br_table $addition $subtract $multiply $none (local.get $number)))
          (return (call $add (local.get $a) (local.get $b))))
        (return (call $sub (local.get $a) (local.get $b))))
      (return (call $mul (local.get $a) (local.get $b))))
    unreachable))
