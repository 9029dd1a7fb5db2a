$( A small database for the tests of the tools. The metamath program verifies it, but for the two proofs with a ? step.
   A comment may say `$.` or `$=` and `$p` without any harm. $)

$c ( ) -> wff |- $.
$v p q r $.
wp $f wff p $.
wq $f wff q $.
wr $f wff r $.

wi $a wff ( p -> q ) $.
ax-1 $a |- ( p -> ( q -> p ) ) $.
ax-2 $a |- ( ( p -> ( q -> r ) ) -> ( ( p -> q ) -> ( p -> r ) ) ) $.

${
  min $e |- p $.
  maj $e |- ( p -> q ) $.
  mp $a |- q $.
$}

$( A normal proof, with a comment inside it. No essential hypotheses. $)
id $p |- ( p -> p ) $=
  wp wp wp wi wi  wp wp wi  wp wp ax-1
  $( the major premise $= $. $)
  wp wp wp wi wp wi wi  wp wp wp wi wi wp wp wi wi  wp wp wp wi ax-1  wp wp wp wi wp ax-2  mp
  mp $.

$( The same tree, compressed. It marks a subtree that it never refers to, and one that it refers to. $)
id.compressed $p |- ( p -> p ) $=
  ( wi ax-1 mp ax-2 ) AAABZBZFAACZAFABBGFBAFCAFAEDD $.

$( The same tree, packed. $)
id.packed $p |- ( p -> p ) $=
  wp wp wp 1:wi 2:wi 1 wp wp ax-1 wp 1 wp wi wi 2 1 wi wp 1 ax-1 wp 1 wp ax-2 mp mp $.

$( Two essential hypotheses. $)
${
  syl.1 $e |- ( p -> q ) $.
  syl.2 $e |- ( q -> r ) $.
  syl $p |- ( p -> r ) $=
    ( wi ax-1 mp ax-2 ) ABFZACFZDABCFZFZJKFLMELAGHABCIHH $.
$}

$( A dummy variable: r stands in the proof and not in the theorem. $)
dummy $p |- ( p -> p ) $=
  ( wr wi id mp ax-1 ) BBCZAACZBDHGHCADHGFEE $.

$( A floating hypothesis after an essential one, and a variable of a block. $)
${
  late.1 $e |- p $.
  ${
    $v s $.
    late.s $f wff s $.
    late $( a comment between a label and its keyword $) $p |- ( s -> p ) $=
      wp late.s wp wi late.1 wp late.s ax-1 mp $.
  $}
$}

$( The variable of the closed block again, as another hypothesis. $)
${
  $v s $.
  again.s $f wff s $.
  again $p |- ( s -> s ) $= again.s id $.
$}

$( The proof is one hypothesis. $)
${
  same.1 $e |- p $.
  same $p |- p $= same.1 $.
$}

todo $p |- ( p -> q ) $= ? $.
todo.compressed $p |- ( p -> q ) $= ( wi ax-1 mp ) AABC??E $.
