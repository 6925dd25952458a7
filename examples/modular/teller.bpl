// A teller pays out in portions, and no account falls below zero. Each procedure is told apart by its contract: `pay` knows of
// `withdraw` what its ensures say, and of its own loop what is shown of it from the contract alone.
// By verify --modular: modular 3, and each part is safe.
var balance: int;

procedure withdraw(amount: int) returns (paid: int)
  requires 0 <= amount;
  requires 0 <= balance;
  modifies balance;
  ensures 0 <= balance;
  ensures balance == old(balance) - paid;
  ensures paid <= amount;
{
  if (amount <= balance) {
    paid := amount;
  } else {
    paid := balance;
  }
  balance := balance - paid;
}

procedure pay(times: int, amount: int)
  requires 0 <= amount;
  requires 0 <= balance;
  modifies balance;
  ensures 0 <= balance;
{
  var done: int;
  var paid: int;

  done := 0;
  while (done < times)
    invariant 0 <= balance;
  {
    call paid := withdraw(amount);
    done := done + 1;
  }
}

procedure main()
  modifies balance;
{
  balance := 100;
  call pay(7, 30);
  assert 0 <= balance;
}
