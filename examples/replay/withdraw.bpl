// An account that may be drawn below zero. By withdraw.failure: replayed assertion 3 line 22.
var balance: int;

procedure withdraw(amount: int) returns (paid: int)
  requires 0 <= amount;
  modifies balance;
  ensures balance == old(balance) - paid;
{
  paid := amount;
  if (balance < 0) { paid := 0; }
  balance := balance - paid;
}

procedure main() modifies balance;
{
  var wanted, paid: int;

  balance := 100;
  havoc wanted;
  assume 0 <= wanted;
  call paid := withdraw(wanted);
  assert 0 <= balance;
}
