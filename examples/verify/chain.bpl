// A chain of fifty procedures, each of which calls the next one.
// By verify: safe, within 1 round.
var g: int;

procedure main()
  modifies g;
{
  g := 0;
  call p1();
}

procedure p1()
  modifies g;
{
  g := g + 1;
  call p2();
  assert g >= 1;
}

procedure p2()
  modifies g;
{
  g := g + 1;
  call p3();
  assert g >= 2;
}

procedure p3()
  modifies g;
{
  g := g + 1;
  call p4();
  assert g >= 3;
}

procedure p4()
  modifies g;
{
  g := g + 1;
  call p5();
  assert g >= 4;
}

procedure p5()
  modifies g;
{
  g := g + 1;
  call p6();
  assert g >= 5;
}

procedure p6()
  modifies g;
{
  g := g + 1;
  call p7();
  assert g >= 6;
}

procedure p7()
  modifies g;
{
  g := g + 1;
  call p8();
  assert g >= 7;
}

procedure p8()
  modifies g;
{
  g := g + 1;
  call p9();
  assert g >= 8;
}

procedure p9()
  modifies g;
{
  g := g + 1;
  call p10();
  assert g >= 9;
}

procedure p10()
  modifies g;
{
  g := g + 1;
  call p11();
  assert g >= 10;
}

procedure p11()
  modifies g;
{
  g := g + 1;
  call p12();
  assert g >= 11;
}

procedure p12()
  modifies g;
{
  g := g + 1;
  call p13();
  assert g >= 12;
}

procedure p13()
  modifies g;
{
  g := g + 1;
  call p14();
  assert g >= 13;
}

procedure p14()
  modifies g;
{
  g := g + 1;
  call p15();
  assert g >= 14;
}

procedure p15()
  modifies g;
{
  g := g + 1;
  call p16();
  assert g >= 15;
}

procedure p16()
  modifies g;
{
  g := g + 1;
  call p17();
  assert g >= 16;
}

procedure p17()
  modifies g;
{
  g := g + 1;
  call p18();
  assert g >= 17;
}

procedure p18()
  modifies g;
{
  g := g + 1;
  call p19();
  assert g >= 18;
}

procedure p19()
  modifies g;
{
  g := g + 1;
  call p20();
  assert g >= 19;
}

procedure p20()
  modifies g;
{
  g := g + 1;
  call p21();
  assert g >= 20;
}

procedure p21()
  modifies g;
{
  g := g + 1;
  call p22();
  assert g >= 21;
}

procedure p22()
  modifies g;
{
  g := g + 1;
  call p23();
  assert g >= 22;
}

procedure p23()
  modifies g;
{
  g := g + 1;
  call p24();
  assert g >= 23;
}

procedure p24()
  modifies g;
{
  g := g + 1;
  call p25();
  assert g >= 24;
}

procedure p25()
  modifies g;
{
  g := g + 1;
  call p26();
  assert g >= 25;
}

procedure p26()
  modifies g;
{
  g := g + 1;
  call p27();
  assert g >= 26;
}

procedure p27()
  modifies g;
{
  g := g + 1;
  call p28();
  assert g >= 27;
}

procedure p28()
  modifies g;
{
  g := g + 1;
  call p29();
  assert g >= 28;
}

procedure p29()
  modifies g;
{
  g := g + 1;
  call p30();
  assert g >= 29;
}

procedure p30()
  modifies g;
{
  g := g + 1;
  call p31();
  assert g >= 30;
}

procedure p31()
  modifies g;
{
  g := g + 1;
  call p32();
  assert g >= 31;
}

procedure p32()
  modifies g;
{
  g := g + 1;
  call p33();
  assert g >= 32;
}

procedure p33()
  modifies g;
{
  g := g + 1;
  call p34();
  assert g >= 33;
}

procedure p34()
  modifies g;
{
  g := g + 1;
  call p35();
  assert g >= 34;
}

procedure p35()
  modifies g;
{
  g := g + 1;
  call p36();
  assert g >= 35;
}

procedure p36()
  modifies g;
{
  g := g + 1;
  call p37();
  assert g >= 36;
}

procedure p37()
  modifies g;
{
  g := g + 1;
  call p38();
  assert g >= 37;
}

procedure p38()
  modifies g;
{
  g := g + 1;
  call p39();
  assert g >= 38;
}

procedure p39()
  modifies g;
{
  g := g + 1;
  call p40();
  assert g >= 39;
}

procedure p40()
  modifies g;
{
  g := g + 1;
  call p41();
  assert g >= 40;
}

procedure p41()
  modifies g;
{
  g := g + 1;
  call p42();
  assert g >= 41;
}

procedure p42()
  modifies g;
{
  g := g + 1;
  call p43();
  assert g >= 42;
}

procedure p43()
  modifies g;
{
  g := g + 1;
  call p44();
  assert g >= 43;
}

procedure p44()
  modifies g;
{
  g := g + 1;
  call p45();
  assert g >= 44;
}

procedure p45()
  modifies g;
{
  g := g + 1;
  call p46();
  assert g >= 45;
}

procedure p46()
  modifies g;
{
  g := g + 1;
  call p47();
  assert g >= 46;
}

procedure p47()
  modifies g;
{
  g := g + 1;
  call p48();
  assert g >= 47;
}

procedure p48()
  modifies g;
{
  g := g + 1;
  call p49();
  assert g >= 48;
}

procedure p49()
  modifies g;
{
  g := g + 1;
  call p50();
  assert g >= 49;
}

procedure p50()
  modifies g;
{
  g := g + 1;
  assert g >= 50;
}
