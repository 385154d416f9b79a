{ Has Castle Game Engine tick a scene, without a window.

  castle                    the engine's version
  castle SCENE.x3dv TICKS   processor seconds to load the scene; then, for each line of standard input, from time 0:
                            microseconds of processor time a tick; or of a line `print`, which is the last, all events
                            that the scene's BooleanFilters send, a line each

  Tick t is at t + 0.25 seconds, since Castle begins a cycle only past the end of the one before. }
program Castle;

{$mode objfpc}{$H+}

uses
  Linux, SysUtils, UnixType, CastleSceneCore, CastleUtils, X3DFields, X3DNodes, X3DTime;

type
  TPrinter = class
    procedure Listen(Node: TX3DNode);
    procedure Print(const Event: TX3DEvent; const Value: TX3DField; const Time: TX3DTime);
  end;

procedure TPrinter.Listen(Node: TX3DNode);
begin
  TBooleanFilterNode(Node).EventInputTrue.AddNotification(@Print);
  TBooleanFilterNode(Node).EventInputFalse.AddNotification(@Print);
  TBooleanFilterNode(Node).EventInputNegate.AddNotification(@Print);
end;

procedure TPrinter.Print(const Event: TX3DEvent; const Value: TX3DField; const Time: TX3DTime);
begin
  Write(TX3DNode(Event.ParentNode).X3DName, '.', Event.X3DName);
  Writeln(' ', BoolToStr(TSFBool(Value).Value, 'TRUE', 'FALSE'));
end;

function Microseconds: Double;
var
  Taken: TTimeSpec;
begin
  clock_gettime(CLOCK_PROCESS_CPUTIME_ID, @Taken);
  Result := Taken.tv_sec * 1e6 + Taken.tv_nsec / 1e3;
end;

procedure Tick(const Scene: TCastleSceneCore; const Ticks: Integer);
var
  I: Integer;
begin
  for I := 1 to Ticks do
    Scene.SetTime(I + 0.25);
end;

procedure Run(const URL: String; const Ticks: Integer);
var
  Scene: TCastleSceneCore;
  Printer: TPrinter;
  Wanted: String;
  Begun: Double;
begin
  Begun := Microseconds;
  Scene := TCastleSceneCore.Create(nil);
  Scene.Load(URL);
  Writeln((Microseconds - Begun) / 1e6 : 0 : 3);
  Flush(Output);
  Printer := TPrinter.Create;
  while not Eof do
  begin
    Readln(Wanted);
    Scene.ResetTime(0);
    Scene.ProcessEvents := true;
    if Wanted = 'print' then
      Scene.RootNode.EnumerateNodes(TBooleanFilterNode, @Printer.Listen, false);
    Begun := Microseconds;
    Tick(Scene, Ticks);
    if Wanted <> 'print' then
      Writeln((Microseconds - Begun) / Ticks : 0 : 3);
    Flush(Output);
  end;
  FreeAndNil(Printer);
  FreeAndNil(Scene);
end;

begin
  if ParamCount = 0 then
    Writeln(CastleEngineVersion)
  else
    Run(ParamStr(1), StrToInt(ParamStr(2)));
end.
