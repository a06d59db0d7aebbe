;; Counts words and lines of a text in memory; what is a blank is told by a table of bytes.
(module
  (memory $text (export "text") 1 1)
  (data (i32.const 0xf000) "\00\00\00\00\00\00\00\00\00\01\01\01\01\01")
  (data (i32.const 0xf020) "\01")
  (func $is_blank (param $byte i32) (result i32)
    (i32.load8_u offset=0xf000 (local.get $byte)))
  (func $count (export "count") (param $length i32) (result i64)
    (local $at i32) (local $words i32) (local $lines i32) (local $inside i32) (local $byte i32)
    block
      loop
        local.get $at local.get $length i32.ge_u br_if 1
        local.get $at i32.load8_u local.tee $byte
        i32.const 10 i32.eq local.get $lines i32.add local.set $lines
        local.get $byte call $is_blank
        if
          i32.const 0 local.set $inside
        else
          local.get $inside i32.eqz
          if
            local.get $words i32.const 1 i32.add local.set $words
            i32.const 1 local.set $inside
          end
        end
        local.get $at i32.const 1 i32.add local.set $at
        br 0
      end
    end
    ;; words in the upper half, lines in the lower
    (i64.or
      (i64.shl (i64.extend_i32_u (local.get $words)) (i64.const 32))
      (i64.extend_i32_u (local.get $lines)))))
