# SPDX-License-Identifier: MIT
"""Writes a package for each Ada text, Own_Text_N: the text, as text_program.py changed it, and after it the unit that calls its
operations. Own names begin with Pobj_, so that they aren't names of the text. The body of Own_Texts chooses among the packages."""

import text_program

SPEC = """with Pobj_Texts;

package Own_Text_{place} is
   function Pobj_Made return not null Pobj_Texts.Units.Unit_Access;
   procedure Pobj_Describe;
end Own_Text_{place};
"""
CHOICE = """{context}

package body Own_Texts is

   function Made (Text : Positive) return not null Pobj_Texts.Units.Unit_Access is
   begin
      Pobj_Texts.Begin_Object;
      case Text is
{made}
      end case;
   end Made;

   procedure Describe (Text : Positive) is
   begin
      Pobj_Texts.Begin_Object;
      case Text is
{described}
      end case;
   end Describe;

end Own_Texts;
"""
HEAD = 'pragma Source_Reference (1, "{name}");\n{context} package body Own_Text_{place} is {text}\n'
UNIT = """
   {uses}

   subtype Pobj_Type is {name};
{marks}

   function Pobj_Entries (Pobj_Object : Pobj_Type) return Standard.Pobj_Texts.Units.Declarations is
      {constants}
      Pobj_Members : array (1 .. {number}) of Standard.Natural := (others => 0);
   begin
      {members}
      return ({entries});
   end Pobj_Entries;

   procedure Pobj_Enter
     (Pobj_Object   : in out Pobj_Type;
      Pobj_To       : Standard.Pobj_Texts.Units.Target;
      Pobj_How      : Standard.Pobj_Texts.Units.Manner;
      Pobj_Item     : in out Standard.Pobj_Texts.Calls.Call;
      Pobj_Selected : out Standard.Boolean)
   is
      Pobj_Line : constant Standard.Pobj_Texts.Calls.Value := Pobj_Item.Item;
      {constants}
   begin
      Standard.Pobj_Texts.Make_Call (Pobj_Item.Number);
      Pobj_Selected := Standard.True;
      case Pobj_To.Name is
{calls}
         when others =>
            raise Standard.Pobj_Texts.Units.No_Such_Entry;
      end case;
   exception
      when Pobj_Occurrence : others =>
         Standard.Pobj_Texts.Fail_Call (Pobj_Occurrence);
   end Pobj_Enter;

   procedure Pobj_Run (Pobj_Object : in out Pobj_Type; Pobj_Item : in out Standard.Pobj_Texts.Calls.Value) is
      Pobj_Line : constant Standard.Pobj_Texts.Calls.Value := Pobj_Item;
   begin
      case Standard.Pobj_Texts.Operation (Pobj_Line) is
{runs}
         when others =>
            null;
      end case;
   exception
      when Pobj_Occurrence : others =>
         Standard.Pobj_Texts.Fail (Pobj_Occurrence);
   end Pobj_Run;

   procedure Pobj_Describe_Entries is
      Pobj_Object : Pobj_Type{made};
      {constants}
   begin
      null;
{listed}
   end Pobj_Describe_Entries;

   package Pobj_Units is

      type Own_Unit{declared} is new Standard.Pobj_Texts.Units.Unit with record
         Object : Pobj_Type{actual};
      end record;

      overriding function Entries (Self : Own_Unit) return Standard.Pobj_Texts.Units.Declarations is (Pobj_Entries (Self.Object));

      overriding procedure Enter
        (Self     : in out Own_Unit;
         To       : Standard.Pobj_Texts.Units.Target;
         How      : Standard.Pobj_Texts.Units.Manner;
         Item     : in out Standard.Pobj_Texts.Calls.Call;
         Selected : out Standard.Boolean);

      overriding procedure Run (Self : in out Own_Unit; Item : in out Standard.Pobj_Texts.Calls.Value);

      overriding function Procedure_Name (Self : Own_Unit) return Standard.String is ("Own");

      overriding function State (Self : Own_Unit) return Standard.Pobj_Texts.Calls.Value is (0);

      overriding function Waiting (Self : Own_Unit) return Standard.Pobj_Texts.Units.Counts is (Self.Object.Pobj_Waiting);

   end Pobj_Units;

   package body Pobj_Units is

      overriding procedure Enter
        (Self     : in out Own_Unit;
         To       : Standard.Pobj_Texts.Units.Target;
         How      : Standard.Pobj_Texts.Units.Manner;
         Item     : in out Standard.Pobj_Texts.Calls.Call;
         Selected : out Standard.Boolean) is
      begin
         Pobj_Enter (Self.Object, To, How, Item, Selected);
      end Enter;

      overriding procedure Run (Self : in out Own_Unit; Item : in out Standard.Pobj_Texts.Calls.Value) is
      begin
         Pobj_Run (Self.Object, Item);
      end Run;

   end Pobj_Units;

   function Pobj_Made return not null Standard.Pobj_Texts.Units.Unit_Access is (new Pobj_Units.Own_Unit{made});

   procedure Pobj_Describe is
   begin
{described}
      Pobj_Describe_Entries;
   exception
      when Pobj_Occurrence : others =>
         Standard.Pobj_Texts.Text_IO.Put_Line
           ("unmade " & Standard.Pobj_Texts.Exceptions.Exception_Name (Pobj_Occurrence));
   end Pobj_Describe;

end Own_Text_{place};
"""
SIMPLE = """               case Pobj_How.Kind is
                  when Standard.Pobj_Texts.Units.Simple =>
                     {call}"""
OTHERS = """
                  when Standard.Pobj_Texts.Units.Conditional =>
                     select
                        {call}
                     else
                        Pobj_Selected := Standard.False;
                     end select;
                  when Standard.Pobj_Texts.Units.Timed =>
                     select
                        {call}
                     or
                        delay until Pobj_How.Deadline;
                        Pobj_Selected := Standard.False;
                     end select;"""
NO_OTHERS = "\n                  when others => raise Standard.Pobj_Texts.Units.No_Such_Entry;"


def marks(unit):
    """Returns the marks of all scalar parameters, results and discriminants, each once, in order."""
    found = {}
    for one in unit.operations:
        for _, _, _, mark in unit.scalars(one.parameters):
            found[mark.lower()] = mark
        if one.result:
            for _, mark in unit.parts(one.result):
                found[mark.lower()] = mark
    for discriminant in unit.discriminants:
        found[discriminant.mark.lower()] = discriminant.mark
    return list(found.values())


def image(mark, value):
    """Returns the expression for the image of a value, after a space."""
    return f'" " & Standard.Pobj_Texts.Trimmed ({mark}\'Image ({value}))'


def actual(mark, place, default):
    """Returns the expression for the actual parameter of that place, or the default if the script leaves it out."""
    value = f"{mark}'Value (Standard.Pobj_Texts.Actual (Pobj_Line, {place}))"
    return f"(if Standard.Pobj_Texts.Has_Actual (Pobj_Line, {place}) then {value} else {default})" if default else value


def variables(unit, parameters):
    """Returns the declarations of the variables for the parameters, and the statements that give values to records."""
    declared, given, place = [], [], 0
    for number, parameter in enumerate(parameters, 1):
        parts = list(unit.parts(parameter.mark))
        values = []
        for components, mark in parts:
            if parameter.mode != "out":
                place += 1
                values.append((components, actual(mark, place, parameter.default)))
        whole = values and parts[0][0] == ""
        declared.append(f"Pobj_{number} : {parameter.mark}{f' := {values[0][1]}' if whole else ''};")
        if not whole:
            given += [f"Pobj_{number}{components} := {value};" for components, value in values]
    return " ".join(declared), " ".join(given)


def in_parentheses(parts):
    """Returns the list of the parts in parentheses, or nothing if there is none."""
    listed = ", ".join(parts)
    return f" ({listed})" if listed else ""


def actuals(parameters):
    """Returns the list of the variables in a call."""
    return in_parentheses(f"Pobj_{number}" for number in range(1, len(parameters) + 1))


def returned(unit, parameters):
    """Returns the expression for the values that come back, in words."""
    return "".join(f" & {image(mark, f'Pobj_{place}{components}')}"
                   for place, components, mode, mark in unit.scalars(parameters) if mode != "in")


def forms(unit, one):
    """Returns the statement that calls the entry in each way."""
    call = f"Pobj_Object.{one.name}{' (Pobj_Index)' if one.family else ''}{actuals(one.parameters)};"
    text = (SIMPLE + (NO_OTHERS if one.has_conditions else OTHERS)).format(call=call) + "\n               end case;"
    if not one.family:
        return text
    return (f"               declare Pobj_Place : Standard.Natural := 0; begin for Pobj_Index in {one.family} loop"
            f" Pobj_Place := Pobj_Place + 1; if Pobj_Place = Pobj_To.Index then\n{text}\n"
            "               end if; end loop; end;")


def entered(unit, one):
    """Returns the alternative that makes a call of the entry."""
    declared, given = variables(unit, one.parameters)
    answer = f'Pobj_Item.Item := Standard.Pobj_Texts.Answer ("done"{returned(unit, one.parameters)});'
    return (f"         when Standard.Pobj_Texts.Names.Entry_{one.place} =>\n"
            f"            declare {declared} begin {given}\n{forms(unit, one)}\n"
            f"               if Pobj_Selected then {answer} end if;\n            end;")


def run(unit, number, one):
    """Returns the alternative that calls the procedure or the function."""
    declared, given = variables(unit, one.parameters)
    called = f"Pobj_Object.{one.name}{actuals(one.parameters)}"
    if one.kind == "procedure":
        done = f'{called}; Pobj_Item := Standard.Pobj_Texts.Answer ("done"{returned(unit, one.parameters)});'
    else:
        values = "".join(f" & {image(mark, f'Pobj_Result{components}')}" for components, mark in unit.parts(one.result))
        done = (f"declare Pobj_Result : constant {one.result} := {called}; begin"
                f' Pobj_Item := Standard.Pobj_Texts.Answer ("value"{values}); end;')
    return f"         when {number} => declare {declared} begin {given} {done} end;"


def made(unit):
    """Returns the discriminants of a new object, as the script has them or by their defaults."""
    values = []
    for place, one in enumerate(unit.discriminants, 1):
        value = f"{one.mark}'Value (Standard.Pobj_Texts.Discriminant ({place}))"
        if one.default:
            value = f"(if Standard.Pobj_Texts.Has_Discriminant ({place}) then {value} else {one.default})"
        values.append(value)
    return in_parentheses(values)


def declarations(unit):
    """Returns the aggregate of what Commands has to know of the entries."""
    if not unit.entries:
        return "1 .. 0 => <>"
    return ", ".join(f"{one.place} => (Standard.Pobj_Texts.Names.Entry_{one.place}, Standard.{one.is_public}, Pobj_Members ({one.place}))"
                     for one in unit.entries)


def members_listed(one):
    """Returns the statements that write an entry's members."""
    put = "Standard.Pobj_Texts.Text_IO.Put"
    member = f'{put} (" " & Standard.Pobj_Texts.Trimmed (Pobj_Index\'Image));'
    loop = f" for Pobj_Index in {one.family} loop {member} end loop;" if one.family else ""
    return f'         {put} ("members");{loop} Standard.Pobj_Texts.Text_IO.New_Line;'


def visible(unit):
    """Returns what makes the declarations of the text's packages visible. A formal type is Integer."""
    uses = [f"use {package};" for package in unit.packages if package != unit.generic]
    if unit.generic:
        types = in_parentheses(f"{name} => Standard.Integer" for name in unit.formals)
        uses = [f"package Pobj_Instance is new {unit.generic}{types};", "use Pobj_Instance;"]
        uses += [f"subtype {name} is Standard.Integer;" for name in unit.formals]
    return " ".join(uses)


def chosen(count, form):
    """Returns the alternatives for this number of texts, of which the last is `others`."""
    choices = [*range(1, count), "others"]
    return "\n".join(f"         when {choice} => {form.format(place=place)};" for place, choice in enumerate(choices, 1))


def choice(count):
    """Returns the body of Own_Texts for this number of texts."""
    context = " ".join(f"with Own_Text_{place};" for place in range(1, count + 1))
    return CHOICE.format(context=context, made=chosen(count, "return Own_Text_{place}.Pobj_Made"),
                         described=chosen(count, "Own_Text_{place}.Pobj_Describe"))


def sources(units, names):
    """Returns the sources for units of the text files of these names, by file."""
    found = {"own_texts.adb": choice(len(units))}
    for place, (unit, name) in enumerate(zip(units, names), 1):
        found[f"own_text_{place}.ads"] = SPEC.format(place=place)
        found[f"own_text_{place}.adb"] = body(unit, name, place)
    return found


def body(unit, name, place=1):
    """Returns the body of the package for a unit of the text file of that name, which is the text with this number."""
    places = range(1, len(unit.discriminants) + 1)
    families = [one for one in unit.entries if one.family]
    constants = " ".join(f"{one.name} : constant {one.mark} := Pobj_Object.{one.name};" for one in unit.discriminants)
    context = " ".join(["with Pobj_Texts;", *unit.context])
    return HEAD.format(name=name, context=context, place=place, text=text_program.changed(unit)) + UNIT.format(
        place=place,
        uses=visible(unit),
        declared=in_parentheses(f"Of_{place} : Pobj_Mark_{place}" for place in places).replace(",", ";"),
        name=unit.name,
        marks="\n".join([f"   subtype Pobj_Mark_{place} is {one.mark};" for place, one in zip(places, unit.discriminants)]
                        + [f"   procedure Pobj_Describe_{number} is new Standard.Pobj_Texts.Describe_Subtype ({mark});"
                           for number, mark in enumerate(marks(unit), 1)]),
        actual=in_parentheses(f"Of_{place}" for place in places),
        constants=constants,
        number=max(1, len(unit.entries)),
        members=" ".join(f"for Pobj_Index in {one.family} loop Pobj_Members ({one.place}) := Pobj_Members ({one.place}) + 1;"
                         " end loop;" for one in families),
        entries=declarations(unit),
        calls="\n".join(entered(unit, one) for one in unit.entries if one.is_public),
        runs="\n".join(run(unit, number, one) for number, one in enumerate(unit.operations, 1)
                       if one.kind != "entry" and one.is_public),
        made=made(unit),
        described="\n".join(f"      Pobj_Describe_{number};" for number in range(1, len(marks(unit)) + 1)),
        listed="\n".join(members_listed(one) for one in unit.entries))
