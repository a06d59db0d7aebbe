;; Behind a branch operands may be missing: this module is valid (status 0).
(module
  (func (export "_start")
    block
      br 0
      i32.add
      drop
    end))
