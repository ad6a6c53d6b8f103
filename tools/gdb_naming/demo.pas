program Demo;
{$mode objfpc}
uses Shapes;
type
  TMood = (Calm, Angry);
  TPair = record first, second: Integer; end;
  TSet = set of TMood;
  TName = string[12];
var
  mood: TMood = Calm;
  pair: TPair;
  names: array[1..3] of TName;
  circle: TCircle;
const
  limit = 12;
  stored: Integer = 4;
procedure Outer(n: Integer);
var
  times: Integer;
  function Inner(m: Integer): Integer;
  begin
    Inner := m + times;
  end;
begin
  times := n;
  pair.first := Inner(3) + stored;
end;
begin
  circle := TCircle.Create(2.0);
  Outer(limit);
  names[1] := 'hello';
  writeln(circle.Area:0:1, ' ', pair.first, names[1], Ord(mood), Counted);
end.
