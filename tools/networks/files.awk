# The endpoint files of which the cases are made.

# What processes 0 and 1 do last, what they call, how the run ends, and with how many events more. The others end.
function endings() {
  is_last["ends"] = "@end@end@ends@0"
  is_last["counts"] = "channel last (A, B);\nprocedure Down p0 (y) { if x <= 0 { pick y B done; end } else { pick y B more; set x x - 1; call Down p0 (y) } }\nprocedure Down p1 (y) { branch y A { done { end } more { call Down p1 (y) } } }@join last[A](z); set x 2; call Down p0 (z)@join last[B](z); call Down p1 (z)@ends@13"
  is_last["absent"] = "channel last (A, B);@join last[A](z); end@end@absent last B@0"
  is_last["absent first"] = "channel last (A, B);@join last[B](z); end@end@absent last A@0"
  is_last["absent of three"] = "channel last (A, B, C);@join last[C](z); end@join last[A](z); end@absent last B@0"
  is_last["empty"] = "channel last (A, B);@join last[A](z); recv z B x; end@join last[B](z); end@empty@1"
  is_last["crossed"] = "channel last (A, B);@join last[A](z); recv z B x; send z B 1; end@join last[B](z); recv z A x; send z A 1; end@empty@1"
  is_last["nobody"] = "channel last (A, B);@join last[A](z); send z C 1; recv z C x; end@join last[B](z); end@empty@2"
  is_last["label for a value"] = "channel last (A, B);@join last[A](z); recv z B x; end@join last[B](z); pick z A odd; end@wrong@2"
  is_last["value for a label"] = "channel last (A, B);@join last[A](z); branch z B { odd { end } }@join last[B](z); send z A 3; end@wrong@2"
  is_last["another label"] = "channel last (A, B);@join last[A](z); branch z B { odd { end } even { end } }@join last[B](z); pick z A none; pick z A odd; end@wrong@3"
  is_last["value for an endpoint"] = "channel last (A, B);@join last[A](z); recv z B x; gain z B g; end@join last[B](z); send z A 1; send z A 3; end@wrong@4"
  is_last["endpoint for a value"] = "channel last (A, B);\nchannel own (A);@join last[A](z); recv z B x; end@join last[B](z); join own[A](y); give z A y; end@wrong@3"
  is_last["rallies"] = "channel last (A, B);\nprocedure Rally p0 (y) { send y B x + 1; recv y B x; call Rally p0 (y) }\nprocedure Rally p1 (y) { recv y A x; send y A x; call Rally p1 (y) }@join last[A](z); call Rally p0 (z)@join last[B](z); call Rally p1 (z)@goes on@0"
  is_last["spins"] = "procedure Spin p0 () { set x x + 1; call Spin p0 () }@call Spin p0 ()@end@goes on@0"
  is_last["serves"] = "channel ask (A | S);\nservice ask[S] { recv ask A x; if x < 3 { send ask A x + 1; end } else { send ask A 0; end } }\nprocedure Ask p0 () { join ask[A](y); send y S x; recv y S x; call Ask p0 () }@call Ask p0 ()@call Ask p0 ()@goes on@0"
  is_last["meets"] = "channel last (A, B);\nprocedure Meet p0 () { join last[A](y); send y B x + 1; call Meet p0 () }\nprocedure Meet p1 () { join last[B](y); recv y A x; call Meet p1 () }@call Meet p0 ()@call Meet p1 ()@goes on@0"
  is_last["hot"] = "channel last (A, B);\nchannel own (A);\nprocedure Hot p0 (y, w) { send w A x; recv w A x; give y B w; gain y B w; call Hot p0 (y, w) }\nprocedure Hot p1 (y) { gain y A v; send v A y + 1; recv v A y; give y A v; call Hot p1 (y) }@join last[A](z); join own[A](w); call Hot p0 (z, w)@join last[B](z); call Hot p1 (z)@goes on@0"
  is_last["says"] = "channel last (A, B);\nprocedure Say p0 (z) { if x < 3 { set x x + 1; pick z B more; call Say p0 (z) } else { set x 0; pick z B turn; recv z B y; call Say p0 (z) } }\nprocedure Hear p1 (z) { branch z A { more { call Hear p1 (z) } turn { send z A y + 1; set y y + 1; call Hear p1 (z) } } }@join last[A](z); call Say p0 (z)@join last[B](z); call Hear p1 (z)@goes on@0"
}

# A file of a number, which ends in one of these ways.
function make(n, last,   i) {
  number = n
  state = n * 7919 + 17
  processes = 3 + below(4)
  torn = last == "torn"
  serves = below(2)
  begin()
  if (n % 3 == 0) crowd(n % 2 ? "A" : "B")
  if (n % 3 == 1) relay()
  if (n % 3 == 2) start_any()
  for (i = 0; i < (torn ? 14 : 6 + n % 5); i++) scene()
  finally(is_last[torn ? "ends" : last])
  finish(promise == "goes on" ? 50 : 80, "0 1 2 " 6 + n " " one_of("65537, 2147483648, 4294967294, 4294967295"))
}

# Nothing is there yet.
function begin(   p) {
  events = sessions = 0
  units = ""
  split("", held); split("", who); split("", roles_of); split("", served); split("", declared); split("", ending); split("", joined); split("", calls); split("", done); split("", closing)
  for (p = 0; p < processes; p++) body[p] = "process p" p " { "
}

# Process 1 hands its role in a session with process 0 over to process 2.
function relay(   s, g) {
  g = start("A B", 0, 1)
  s = start("A B", 1, 1)
  value(g, "B", "A", "x + 2")
  hand_over(s, "A", "B", g)
  value(g, "A", "B", "5")
  value(g, "B", "A", "x * x")
}

# Numbers from 0 to the one before this, in another order, with a factor that has no divisor in common with it.
function place(i, count, factor) { return i * factor % count }

# A file that is written out at once.
function put_great(what, count, steps, seeds, file) {
  number = what
  processes = count
  torn = 0
  put_cases("endpoints 1;\n" file, steps, seeds)
}

# Twenty processes meet twenty others on five channels.
function great_pairs(   i, at, file) {
  for (i = 0; i < 5; i++) file = file "channel m" i " (A, B);\n"
  for (i = 0; i < 40; i++) {
    at = place(i, 40, 17)
    if (at < 20) file = file "process a" at " { join m" at % 5 "[A](k); send k B " at "; recv k B x; end }\n"
    else file = file "process b" at " { join m" at % 5 "[B](k); recv k A x; send k A x * 2; show x; end }\n"
  }
  events = 120
  promise = "ends"
  put_great("of pairs", 40, 150, "0 5 4294967295", file)
}

# One process meets all others, one after the other.
function great_hub(   i, at, file) {
  file = "channel star (A, B);\nprocedure Hub h () { join star[A](k); recv k B x; set s s + x; if s < 741 { call Hub h () } else { show s; end } }\n"
  for (i = 0; i < 39; i++) {
    at = place(i, 39, 16)
    if (at == 0) file = file "process h { call Hub h () }\n"
    else file = file "process p" at " { join star[B](k); send k A " at "; end }\n"
  }
  events = 191
  promise = "ends"
  put_great("of a hub", 39, 200, "0 4294967294", file)
}

# Three roles in which many join again and again.
function great_three(   i, at, role, file) {
  file = "channel tri (A, B, C);\nprocedure Meet a () { join tri[A](k); send k B x + 1; recv k C x; call Meet a () }\nprocedure Meet b () { join tri[B](k); recv k A x; send k C x; call Meet b () }\nprocedure Meet c () { join tri[C](k); recv k B x; send k A x + 1; call Meet c () }\n"
  for (i = 0; i < 41; i++) {
    at = place(i, 41, 7)
    file = file "process p" at " { call Meet " substr("abc", at % 3 + 1, 1) " () }\n"
  }
  promise = "goes on"
  put_great("of threes", 41, 120, "0 7 65537 4294967295", file)
}

# A role goes from hand to hand, and each hand sends a number before it hands it over.
function great_chain(   i, file) {
  file = "channel tok (A, B);\nprocedure Take p0 (t) { recv t B x; set s s + x; if x < 19 { call Take p0 (t) } else { show s; end } }\nprocess p0 { join tok[A](t); call Take p0 (t) }\n"
  for (i = 1; i < 20; i++) {
    file = file (i < 19 ? "channel h" i " (A, B);\n" : "") "process p" i " { "
    if (i == 1) file = file "join tok[B](t); "
    else file = file "join h" i - 1 "[B](k); gain k A t; "
    file = file "send t A " i "; "
    if (i < 19) file = file "join h" i "[A](m); give m B t; "
    file = file "end }\n"
  }
  events = 132
  promise = "ends"
  put_great("of a chain", 20, 150, "0 3 2147483648", file)
}

BEGIN {
  endings()
  names = split("ends,counts,absent,torn,rallies,empty,ends,torn,spins,label for a value,counts,torn,serves,value for a label,ends,torn,meets,another label,counts,torn,hot,value for an endpoint,absent first,torn,says,endpoint for a value,crossed,torn,absent of three,nobody,ends,torn", name, ",")
  print "Runs of endpoint files that are made from numbers. Made by tools/network_cases."
  for (turn = 0; turn < (rounds ? rounds : 1); turn++)
    for (i = 1; i <= names; i++) make(turn * names + i, name[i])
  great_pairs()
  great_hub()
  great_three()
  great_chain()
}
