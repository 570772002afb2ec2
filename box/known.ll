; Callers that are compiled together with the unit, for box/merged: where an allowance lasts for every store, they pass just that
; number, and the compiler knows it. Linked in place of the calls (--wrap).

define i64 @__wrap_tahvenno_fill(ptr %kept, i64 %words, i64 %row, i64 %w0, i64 %w1, i64 %w2, i64 %w3, i64 %allowance, ptr %answer) {
  %lasts = icmp uge i64 %allowance, 4
  br i1 %lasts, label %whole, label %any
whole:
  %r = call i64 @tahvenno_fill(ptr %kept, i64 %words, i64 %row, i64 %w0, i64 %w1, i64 %w2, i64 %w3, i64 4, ptr %answer)
  ret i64 %r
any:
  %s = call i64 @tahvenno_fill(ptr %kept, i64 %words, i64 %row, i64 %w0, i64 %w1, i64 %w2, i64 %w3, i64 %allowance, ptr %answer)
  ret i64 %s
}

define i64 @__wrap_tahvenno_table_fill(ptr %kept, i64 %words, ptr %table, i64 %more, i64 %row, i64 %w0, i64 %w1, i64 %allowance, ptr %answer) {
  %lasts = icmp uge i64 %allowance, 2
  br i1 %lasts, label %whole, label %any
whole:
  %r = call i64 @tahvenno_table_fill(ptr %kept, i64 %words, ptr %table, i64 %more, i64 %row, i64 %w0, i64 %w1, i64 2, ptr %answer)
  ret i64 %r
any:
  %s = call i64 @tahvenno_table_fill(ptr %kept, i64 %words, ptr %table, i64 %more, i64 %row, i64 %w0, i64 %w1, i64 %allowance, ptr %answer)
  ret i64 %s
}

define i64 @__wrap_tahvenno_event_write(ptr %events, i64 %words, ptr %record, i64 %allowance, ptr %answer) {
  %lasts = icmp uge i64 %allowance, 5
  br i1 %lasts, label %whole, label %any
whole:
  %r = call i64 @tahvenno_event_write(ptr %events, i64 %words, ptr %record, i64 5, ptr %answer)
  ret i64 %r
any:
  %s = call i64 @tahvenno_event_write(ptr %events, i64 %words, ptr %record, i64 %allowance, ptr %answer)
  ret i64 %s
}
