unit Shapes;
{$mode objfpc}
interface
type
  TShape = class
  private
    FName: string;
  public
    constructor Create(name: string);
    function Area: Double; virtual; abstract;
    property Name: string read FName;
  end;
  TCircle = class(TShape)
  private
    FRadius: Double;
  public
    class var Made: Integer;
    constructor Create(radius: Double);
    function Area: Double; override;
  end;
  PNode = ^TNode;
  TNode = record next: PNode; value: Integer; end;
function Counted: Integer;
var
  Shared: Integer = 3;
implementation
var
  hidden: Integer = 5;
constructor TShape.Create(name: string);
begin
  FName := name;
end;
constructor TCircle.Create(radius: Double);
begin
  inherited Create('circle');
  FRadius := radius;
  Inc(Made);
end;
function TCircle.Area: Double;
begin
  Area := FRadius * FRadius * 3;
end;
function Counted: Integer;
begin
  Counted := TCircle.Made + hidden;
end;
end.
