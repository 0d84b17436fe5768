{module, accounts}.  %% version = 0

{exports, [{all_done,2},
           {done,2},
           {examples,0},
           {fee,1},
           {module_info,0},
           {module_info,1},
           {open,1},
           {total,1}]}.

{attributes, []}.

{labels, 43}.


{function, open, 1, 2}.
  {label,1}.
    {line,[{location,"accounts.erl",6}]}.
    {func_info,{atom,accounts},{atom,open},1}.
  {label,2}.
    {test,is_atom,{f,1},[{x,0}]}.
    {test_heap,5,1}.
    {put_tuple2,{x,0},{list,[{atom,account},{x,0},{integer,0},{atom,open}]}}.
    return.


{function, done, 2, 4}.
  {label,3}.
    {line,[{location,"accounts.erl",10}]}.
    {func_info,{atom,accounts},{atom,done},2}.
  {label,4}.
    {test,is_tuple,{f,10},[{x,0}]}.
    {select_tuple_arity,{x,0},{f,10},{list,[3,{f,7},4,{f,5}]}}.
  {label,5}.
    {get_tuple_element,{x,0},0,{x,2}}.
    {get_tuple_element,{x,0},2,{x,3}}.
    {test,is_eq_exact,{f,10},[{x,2},{atom,move}]}.
    {get_tuple_element,{x,0},3,{x,2}}.
    {test,is_integer,{f,10},[{x,2}]}.
    {test,is_lt,{f,10},[{integer,0},{x,2}]}.
    {line,[{location,"accounts.erl",15}]}.
    {gc_bif,'-',{f,0},4,[{x,2}],{x,4}}.
    {allocate,2,5}.
    {move,{x,3},{y,0}}.
    {move,{x,2},{y,1}}.
    {get_tuple_element,{x,0},1,{x,0}}.
    {move,{x,1},{x,2}}.
    {move,{x,4},{x,1}}.
    {line,[{location,"accounts.erl",15}]}.
    {call,3,{f,12}}.
    {'%',
     {var_info,
      {x,0},
      [{type,
        {t_union,none,none,none,
         [{{2,{t_atom,[error]}},
           {t_tuple,2,true,
            #{1 => {t_atom,[error]},
              2 =>
               {t_union,
                {t_atom,[closed]},
                none,none,
                [{{2,{t_atom,[held]}},
                  {t_tuple,2,true,#{1 => {t_atom,[held]}}}},
                 {{2,{t_atom,[no_account]}},
                  {t_tuple,2,true,#{1 => {t_atom,[no_account]}}}},
                 {{2,{t_atom,[short_of]}},
                  {t_tuple,2,true,#{1 => {t_atom,[short_of]},2 => number}}}],
                none}}}},
          {{2,{t_atom,[ok]}},
           {t_tuple,2,true,#{1 => {t_atom,[ok]},2 => {t_cons,any,any}}}}],
         none}}]}}.
    {test,is_tagged_tuple,{f,6},[{x,0},2,{atom,ok}]}.
    {get_tuple_element,{x,0},1,{x,2}}.
    {move,{y,1},{x,1}}.
    {move,{y,0},{x,0}}.
    {call_last,3,{f,12},2}.
  {label,6}.
    {deallocate,2}.
    return.
  {label,7}.
    {get_tuple_element,{x,0},0,{x,2}}.
    {get_tuple_element,{x,0},1,{x,3}}.
    {get_tuple_element,{x,0},2,{x,0}}.
    {select_val,{x,2},
                {f,10},
                {list,[{atom,pay_in},{f,9},{atom,pay_out},{f,8}]}}.
  {label,8}.
    {test,is_integer,{f,10},[{x,0}]}.
    {test,is_lt,{f,10},[{integer,0},{x,0}]}.
    {line,[{location,"accounts.erl",13}]}.
    {gc_bif,'-',{f,0},4,[{x,0}],{x,0}}.
    {move,{x,1},{x,2}}.
    {move,{x,0},{x,1}}.
    {move,{x,3},{x,0}}.
    {call_only,3,{f,12}}.
  {label,9}.
    {test,is_integer,{f,10},[{x,0}]}.
    {test,is_lt,{f,10},[{integer,0},{x,0}]}.
    {move,{x,1},{x,2}}.
    {move,{x,0},{x,1}}.
    {move,{x,3},{x,0}}.
    {call_only,3,{f,12}}.
  {label,10}.
    {move,{literal,{error,no_order}},{x,0}}.
    return.


{function, changed, 3, 12}.
  {label,11}.
    {line,[{location,"accounts.erl",22}]}.
    {func_info,{atom,accounts},{atom,changed},3}.
  {label,12}.
    {'%',{var_info,{x,1},[{type,{t_integer,any}}]}}.
    {test,is_nonempty_list,{f,19},[{x,2}]}.
    {get_list,{x,2},{x,3},{x,2}}.
    {test,is_tagged_tuple,{f,17},[{x,3},4,{atom,account}]}.
    {get_tuple_element,{x,3},1,{x,4}}.
    {test,is_eq_exact,{f,17},[{x,4},{x,0}]}.
    {get_tuple_element,{x,3},2,{x,4}}.
    {line,[{location,"accounts.erl",23}]}.
    {gc_bif,'+',{f,0},5,[{x,4},{x,1}],{x,1}}.
    {get_tuple_element,{x,3},3,{x,3}}.
    {test,is_tuple,{f,13},[{x,3}]}.
    {test,is_tagged_tuple,{f,20},[{x,3},2,{atom,held}]}.
    {test_heap,3,4}.
    {put_tuple2,{x,0},{list,[{atom,error},{x,3}]}}.
    return.
  {label,13}.
    {select_val,{x,3},{f,20},{list,[{atom,closed},{f,16},{atom,open},{f,14}]}}.
  {label,14}.
    {test,is_ge,{f,15},[{x,1},{integer,0}]}.
    {test_heap,10,3}.
    {put_tuple2,{x,0},{list,[{atom,account},{x,0},{x,1},{atom,open}]}}.
    {put_list,{x,0},{x,2},{x,0}}.
    {put_tuple2,{x,0},{list,[{atom,ok},{x,0}]}}.
    return.
  {label,15}.
    {line,[{location,"accounts.erl",26}]}.
    {gc_bif,'-',{f,0},2,[{x,1}],{x,0}}.
    {test_heap,6,1}.
    {put_tuple2,{x,0},{list,[{atom,short_of},{x,0}]}}.
    {put_tuple2,{x,0},{list,[{atom,error},{x,0}]}}.
    return.
  {label,16}.
    {move,{literal,{error,closed}},{x,0}}.
    return.
  {label,17}.
    {allocate,1,4}.
    {move,{x,3},{y,0}}.
    {line,[{location,"accounts.erl",31}]}.
    {call,3,{f,12}}.
    {'%',
     {var_info,
      {x,0},
      [{type,
        {t_union,none,none,none,
         [{{2,{t_atom,[error]}},
           {t_tuple,2,true,
            #{1 => {t_atom,[error]},
              2 =>
               {t_union,
                {t_atom,[closed]},
                none,none,
                [{{2,{t_atom,[held]}},
                  {t_tuple,2,true,#{1 => {t_atom,[held]}}}},
                 {{2,{t_atom,[no_account]}},
                  {t_tuple,2,true,#{1 => {t_atom,[no_account]}}}},
                 {{2,{t_atom,[short_of]}},
                  {t_tuple,2,true,#{1 => {t_atom,[short_of]},2 => number}}}],
                none}}}},
          {{2,{t_atom,[ok]}},
           {t_tuple,2,true,#{1 => {t_atom,[ok]},2 => {t_cons,any,any}}}}],
         none}}]}}.
    {test,is_tagged_tuple,{f,18},[{x,0},2,{atom,ok}]}.
    {test_heap,5,1}.
    {get_tuple_element,{x,0},1,{x,0}}.
    {put_list,{y,0},{x,0},{x,0}}.
    {put_tuple2,{x,0},{list,[{atom,ok},{x,0}]}}.
    {deallocate,1}.
    return.
  {label,18}.
    {deallocate,1}.
    return.
  {label,19}.
    {test,is_nil,{f,11},[{x,2}]}.
    {test_heap,6,1}.
    {put_tuple2,{x,0},{list,[{atom,no_account},{x,0}]}}.
    {put_tuple2,{x,0},{list,[{atom,error},{x,0}]}}.
    return.
  {label,20}.
    {line,[{location,"accounts.erl",24}]}.
    {case_end,{x,3}}.


{function, all_done, 2, 22}.
  {label,21}.
    {line,[{location,"accounts.erl",39}]}.
    {func_info,{atom,accounts},{atom,all_done},2}.
  {label,22}.
    {test,is_nonempty_list,{f,24},[{x,0}]}.
    {allocate,3,2}.
    {move,{x,1},{y,2}}.
    {get_list,{x,0},{y,1},{y,0}}.
    {move,{y,1},{x,0}}.
    {line,[{location,"accounts.erl",40}]}.
    {call,2,{f,4}}.
    {'%',
     {var_info,
      {x,0},
      [{type,
        {t_union,none,none,none,
         [{{2,{t_atom,[error]}},
           {t_tuple,2,true,
            #{1 => {t_atom,[error]},
              2 =>
               {t_union,
                {t_atom,[closed,no_order]},
                none,none,
                [{{2,{t_atom,[held]}},
                  {t_tuple,2,true,#{1 => {t_atom,[held]}}}},
                 {{2,{t_atom,[no_account]}},
                  {t_tuple,2,true,#{1 => {t_atom,[no_account]}}}},
                 {{2,{t_atom,[short_of]}},
                  {t_tuple,2,true,#{1 => {t_atom,[short_of]},2 => number}}}],
                none}}}},
          {{2,{t_atom,[ok]}},
           {t_tuple,2,true,#{1 => {t_atom,[ok]},2 => {t_cons,any,any}}}}],
         none}}]}}.
    {get_tuple_element,{x,0},0,{x,1}}.
    {get_tuple_element,{x,0},1,{x,0}}.
    {test,is_eq_exact,{f,23},[{x,1},{atom,ok}]}.
    {move,{x,0},{x,1}}.
    {move,{y,0},{x,0}}.
    {call_last,2,{f,22},3}.
  {label,23}.
    {test_heap,5,1}.
    {put_tuple2,{x,0},{list,[{atom,stopped},{y,1},{x,0},{y,2}]}}.
    {deallocate,3}.
    return.
  {label,24}.
    {test,is_nil,{f,21},[{x,0}]}.
    {test_heap,3,2}.
    {put_tuple2,{x,0},{list,[{atom,ok},{x,1}]}}.
    return.


{function, total, 1, 26}.
  {label,25}.
    {line,[{location,"accounts.erl",47}]}.
    {func_info,{atom,accounts},{atom,total},1}.
  {label,26}.
    {allocate,0,1}.
    {line,[{location,"accounts.erl",48}]}.
    {call,1,{f,28}}.
    {'%',{var_info,{x,0},[{type,{t_list,any,nil}}]}}.
    {line,[{location,"accounts.erl",48}]}.
    {call_ext_last,1,{extfunc,lists_again,sum,1},0}.


{function, balances, 1, 28}.
  {label,27}.
    {line,[{location,"accounts.erl",50}]}.
    {func_info,{atom,accounts},{atom,balances},1}.
  {label,28}.
    {test,is_nonempty_list,{f,29},[{x,0}]}.
    {get_list,{x,0},{x,1},{x,2}}.
    {test,is_tagged_tuple,{f,27},[{x,1},4,{atom,account}]}.
    {allocate,1,3}.
    {move,{x,1},{y,0}}.
    {move,{x,2},{x,0}}.
    {line,[{location,"accounts.erl",51}]}.
    {call,1,{f,28}}.
    {'%',{var_info,{x,0},[{type,{t_list,any,nil}}]}}.
    {test_heap,2,1}.
    {get_tuple_element,{y,0},2,{x,1}}.
    {put_list,{x,1},{x,0},{x,0}}.
    {deallocate,1}.
    return.
  {label,29}.
    {test,is_nil,{f,27},[{x,0}]}.
    return.


{function, fee, 1, 31}.
  {label,30}.
    {line,[{location,"accounts.erl",56}]}.
    {func_info,{atom,accounts},{atom,fee},1}.
  {label,31}.
    {test,is_tuple,{f,36},[{x,0}]}.
    {select_tuple_arity,{x,0},{f,36},{list,[2,{f,35},3,{f,33},4,{f,32}]}}.
  {label,32}.
    {get_tuple_element,{x,0},1,{x,1}}.
    {get_tuple_element,{x,0},2,{x,2}}.
    {test,is_ne_exact,{f,35},[{x,1},{x,2}]}.
    {get_tuple_element,{x,0},3,{x,0}}.
    {line,[{location,"accounts.erl",62}]}.
    {gc_bif,'div',{f,0},1,[{x,0},{integer,50}],{x,1}}.
    {move,{integer,3},{x,0}}.
    {call_ext_only,2,{extfunc,erlang,max,2}}.
  {label,33}.
    {get_tuple_element,{x,0},0,{x,1}}.
    {test,is_eq_exact,{f,34},[{x,1},{atom,pay_in}]}.
    {move,{integer,1},{x,0}}.
    return.
  {label,34}.
    {get_tuple_element,{x,0},2,{x,0}}.
    {line,[{location,"accounts.erl",60}]}.
    {gc_bif,'div',{f,0},1,[{x,0},{integer,100}],{x,0}}.
    {line,[{location,"accounts.erl",60}]}.
    {gc_bif,'+',{f,0},1,[{x,0},{integer,2}],{x,0}}.
    return.
  {label,35}.
    {move,{integer,0},{x,0}}.
    return.
  {label,36}.
    {line,[{location,"accounts.erl",57}]}.
    {case_end,{x,0}}.


{function, examples, 0, 38}.
  {label,37}.
    {line,[{location,"accounts.erl",65}]}.
    {func_info,{atom,accounts},{atom,examples},0}.
  {label,38}.
    {move,{literal,[{account,rose,100,open},
                    {account,tom,25,closed},
                    {account,may,0,{held,new}}]},
          {x,0}}.
    return.


{function, module_info, 0, 40}.
  {label,39}.
    {line,[]}.
    {func_info,{atom,accounts},{atom,module_info},0}.
  {label,40}.
    {move,{atom,accounts},{x,0}}.
    {line,[]}.
    {call_ext_only,1,{extfunc,erlang,get_module_info,1}}.


{function, module_info, 1, 42}.
  {label,41}.
    {line,[]}.
    {func_info,{atom,accounts},{atom,module_info},1}.
  {label,42}.
    {move,{x,0},{x,1}}.
    {move,{atom,accounts},{x,0}}.
    {line,[]}.
    {call_ext_only,2,{extfunc,erlang,get_module_info,2}}.
