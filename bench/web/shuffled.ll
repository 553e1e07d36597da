
; What an x86-64 processor does by one instruction, and the kit's reader of UTF-8 asks for by name: of each place the octet of the
; first that its low four bits say, or 0 where its highest bit is set. It is put behind the archive's own text.
define internal <16 x i8> @redplay_shuffled(<16 x i8> %all, <16 x i8> %places) noinline nounwind {
begin:
  br label %next
next:
  %at = phi i32 [ 0, %begin ], [ %behind, %next ]
  %old = phi <16 x i8> [ zeroinitializer, %begin ], [ %new, %next ]
  %place = extractelement <16 x i8> %places, i32 %at
  %low = and i8 %place, 15
  %found = extractelement <16 x i8> %all, i8 %low
  %none = icmp slt i8 %place, 0
  %octet = select i1 %none, i8 0, i8 %found
  %new = insertelement <16 x i8> %old, i8 %octet, i32 %at
  %behind = add i32 %at, 1
  %over = icmp eq i32 %behind, 16
  br i1 %over, label %end, label %next
end:
  ret <16 x i8> %new
}
